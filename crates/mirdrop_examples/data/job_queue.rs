struct Buf(i32);
impl Drop for Buf {
    fn drop(&mut self) { print(self.0); }
}
trait Job {
    fn cost(&self) -> i32;
    fn run(&mut self, turn: i32) -> bool;
}
struct Send { head: Buf, body: Buf, sent: i32 }
struct Fail(Buf);
impl Send {
    fn new(n: i32) -> Self {
        Send { head: Buf(n), body: Buf(n + 1), sent: 0 }
    }
}
impl Job for Send {
    fn cost(&self) -> i32 { 2 - self.sent }
    fn run(&mut self, turn: i32) -> bool {
        self.sent = self.sent + 1;
        if self.sent == 1 {
            self.body = Buf(turn);
            return false;
        }
        true
    }
}
impl Job for Fail {
    fn cost(&self) -> i32 { 1 }
    fn run(&mut self, turn: i32) -> bool {
        if turn > 2 { panic!("job failed") }
        true
    }
}
enum Slot { Free, Ready(Box<dyn Job>), Done(i32) }
struct Queue { a: Slot, b: Slot }
fn step(slot: Slot, turn: i32) -> Slot {
    match slot {
        Slot::Ready(mut job) => {
            if job.cost() > 3 {
                return Slot::Free;
            }
            if job.run(turn) {
                return Slot::Done(turn);
            }
            Slot::Ready(job)
        }
        other => other,
    }
}
fn is_done(slot: &Slot) -> bool {
    match *slot {
        Slot::Done(_) => true,
        _ => false,
    }
}
fn main() {
    let mut q = Queue {
        a: Slot::Ready(Box::new(Send::new(10))),
        b: Slot::Ready(Box::new(Fail(Buf(20)))),
    };
    let mut turn = ask();
    while !(is_done(&q.a) && is_done(&q.b)) {
        q.a = step(q.a, turn);
        q.b = step(q.b, turn);
        turn = turn + 1;
    }
    print(turn);
}
