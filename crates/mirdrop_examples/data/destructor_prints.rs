struct Part(i32);
impl Drop for Part { fn drop(&mut self) {} }
struct Whole(i32);
impl Drop for Whole {
    fn drop(&mut self) {
        print(7);
        { let part = Part(1); }
        print(8);
    }
}
fn main() { let whole = Whole(1); }
