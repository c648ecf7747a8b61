mod bare;
mod run;
mod walk;

pub fn run() {
    run::run();
    walk::run();
}
