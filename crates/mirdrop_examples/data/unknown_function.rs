fn main() { f(); }
