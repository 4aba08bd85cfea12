function Comment({ c }) { return <li><b>{c.author}</b>: {c.text}</li>; }
function Comments({ post }) { const list = use("comments:" + post); return <ul>{list.map((c) => <Comment c={c}/>)}</ul>; }
function Post({ id }) { const p = use("post:" + id); return <article><h2>{p.title}</h2><p>{p.body}</p><Suspense fallback={<p className="wait">Comments are loading.</p>}><Comments post={id}/></Suspense></article>; }
function App() { return <main><h1>The kettle</h1><Suspense fallback={<p className="wait">One moment.</p>}><Post id={1}/></Suspense><Suspense fallback={<p className="wait">One moment.</p>}><Post id={2}/></Suspense></main>; }
