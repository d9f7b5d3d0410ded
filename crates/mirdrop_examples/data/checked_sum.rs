fn main() {
    print(2147483647 + ask());
}
