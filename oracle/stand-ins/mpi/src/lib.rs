//! Stand-in for `mpi`: one process, which sends nothing and receives nothing.

/// The communicator of one process.
pub struct OneProcess;

/// Another process. There is none.
pub enum Process {}

/// What a receive tells beside the data.
pub struct Status;

pub mod traits {
    use crate::{request::Request, OneProcess, Process, Status};

    pub trait Communicator {
        fn rank(&self) -> i32;
        fn size(&self) -> i32;
        fn process_at_rank(&self, rank: i32) -> Process;
    }

    impl Communicator for OneProcess {
        fn rank(&self) -> i32 {
            0
        }
        fn size(&self) -> i32 {
            1
        }
        fn process_at_rank(&self, rank: i32) -> Process {
            panic!("one process: asked for process {rank}")
        }
    }

    pub trait Destination {
        fn immediate_send<Scope, Data: ?Sized>(&self, scope: Scope, data: &Data) -> Request;
    }

    impl Destination for Process {
        fn immediate_send<Scope, Data: ?Sized>(&self, _: Scope, _: &Data) -> Request {
            match *self {}
        }
    }

    pub trait Source {
        fn receive<M>(&self) -> (M, Status);
        fn receive_vec<M>(&self) -> (Vec<M>, Status);
    }

    impl Source for Process {
        fn receive<M>(&self) -> (M, Status) {
            match *self {}
        }
        fn receive_vec<M>(&self) -> (Vec<M>, Status) {
            match *self {}
        }
    }
}

pub mod request {
    /// A send under way.
    pub struct Request;

    /// Waits for a send.
    pub struct WaitGuard;

    impl From<Request> for WaitGuard {
        fn from(_: Request) -> Self {
            WaitGuard
        }
    }

    /// What sends live in.
    pub struct Scope;

    pub fn scope<R>(f: impl FnOnce(&Scope) -> R) -> R {
        f(&Scope)
    }
}
