fn main() { main(); }
