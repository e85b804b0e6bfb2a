//! One worker for each script, over one board behind a lock.

use std::sync::Mutex;
use std::thread;

use crate::board::{Board, Reply, Request};

/// Makes the calls of one script, and takes the lock for each of them.
fn work(board: &Mutex<Board>, script: Vec<Request>) -> Vec<Reply> {
    let mut replies = Vec::with_capacity(script.len());
    for request in script {
        let reply = board.lock().unwrap().call(request).clone();
        replies.push(reply);
    }
    replies
}

/// Runs each script in a thread of its own, and gives the board and the replies that each worker got.
pub fn run(mut board: Board, scripts: Vec<Vec<Request>>) -> (Board, Vec<Vec<Reply>>) {
    board.log.reserve(scripts.iter().map(Vec::len).sum());
    let board = Mutex::new(board);
    let replies = thread::scope(|scope| {
        let workers: Vec<_> =
            scripts.into_iter().map(|script| scope.spawn(|| work(&board, script))).collect();
        workers.into_iter().map(|worker| worker.join().unwrap()).collect()
    });
    (board.into_inner().unwrap(), replies)
}
