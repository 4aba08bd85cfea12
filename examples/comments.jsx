function Comment({ c }) { return <li data-id={c.id}><b>{c.author}</b>: {c.text}</li>; }
function Comments({ post }) {
  const list = use("comments:" + post);
  return list.length === 0 ? <p>No comments yet.</p> : <ul>{list.map((c) => <Comment key={c.id} c={c}/>)}</ul>;
}
function Article() {
  const a = use("post:42");
  return (
    <article>
      <h1>{a.title}</h1>
      <p>{a.body}</p>
      <Suspense fallback={<p className="wait">Loading comments</p>}><Comments post={42}/></Suspense>
    </article>
  );
}
function App() {
  return (
    <main id="page">
      <header>Blog &amp; News</header>
      <Suspense fallback={<p className="wait">Loading</p>}><Article/></Suspense>
    </main>
  );
}
