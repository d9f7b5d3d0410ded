fn main() { let s = "x; }
