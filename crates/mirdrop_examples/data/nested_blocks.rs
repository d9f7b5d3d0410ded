struct D(i32);
impl Drop for D { fn drop(&mut self) {} }
fn main() {
    let outer = D(1);
    {
        let middle = D(2);
        {
            let inner = D(3);
        }
        print(1);
    }
    print(2);
}
