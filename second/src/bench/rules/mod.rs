mod allowed_to;
mod allowed_to_someone;
mod ask;
mod check;
mod finished;
mod keep;
mod take;

pub fn run() {
    check::run();
    ask::run();
    allowed_to::run();
    allowed_to_someone::run();
    take::run();
    finished::run();
    keep::run();
}
