function Panel({ name }) { const p = use("panel:" + name); return <section><h2>{p.title}</h2><p>{p.value}</p></section>; }
function Place({ name }) { return <Suspense fallback={<section><h2>{name}</h2><p>...</p></section>}><Panel name={name}/></Suspense>; }
function App() { const names = use("names"); return <main><h1>Today</h1>{names.map((name) => <Place name={name}/>)}</main>; }
