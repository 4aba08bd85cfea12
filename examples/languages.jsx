function Haiku() { const h = use("haiku"); return <blockquote lang="ja">{h.first}<br/>{h.second}<br/>{h.third}</blockquote>; }
function Proverb() { const p = use("proverb"); return <p lang="ar" dir="rtl">{p}</p>; }
function App() { return <main><h1 lang="ja">古池</h1><Suspense fallback={<p lang="ja">読み込み中</p>}><Haiku/></Suspense><h1 lang="ar" dir="rtl">مَثَل</h1><Suspense fallback={<p lang="ar" dir="rtl">جارٍ التحميل</p>}><Proverb/></Suspense></main>; }
