/* fn main() {}
