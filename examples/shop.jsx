function Price({ id }) { const p = use("price:" + id); return <strong>{p}</strong>; }
function Stock({ id }) { const n = use("stock:" + id); return <p>{n === 0 ? "sold out" : n + " left"}</p>; }
function Product({ id }) { return <section><h2>{id}</h2><Suspense fallback={<em>the price follows</em>}><Price id={id}/></Suspense><Stock id={id}/></section>; }
function App() { return <main><h1>Shop</h1><Suspense fallback={<p>Looking it up.</p>}><Product id="kettle"/></Suspense></main>; }
