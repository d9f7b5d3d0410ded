fn main() { @ }
