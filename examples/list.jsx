function Item({ name, last }) { return <li className={last && "last"}>{name}{last ? "." : ","}</li>; }
function List() { return <ul><Item name="kettles"/><Item name="cups" last/></ul>; }
function App() { return <main><h1 title="it's so">Needed</h1><List/></main>; }
