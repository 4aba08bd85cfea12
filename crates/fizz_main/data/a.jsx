function App() { return <div className="a">Hi</div>; }
