//! What a user of tokio would write for the scripts of `bench/compare`; and the same where each task keeps a log of what it did,
//! 24 bytes an event, as the trace of a fiber does.
use std::env;

/// One thing that a task did.
struct Event {
    _kind: u32,
    _other: u32,
    _value: u64,
    _stamp: u64,
}

/// What a task did, where that is kept.
struct Log {
    events: Option<Vec<Event>>,
}

impl Log {
    fn new(keeps: bool) -> Log {
        Log { events: keeps.then(Vec::new) }
    }

    fn tell(&mut self, kind: u32, other: u64, value: u64) {
        if let Some(events) = &mut self.events {
            let stamp = events.len() as u64 + 1;
            events.push(Event { _kind: kind, _other: other as u32, _value: value, _stamp: stamp });
        }
    }
}

async fn pipe(count: u64, keeps: bool) -> Vec<Log> {
    let (send, take) = async_channel::bounded::<u64>(64);
    let mut tasks = Vec::new();
    for _ in 0..2 {
        let send = send.clone();
        tasks.push(tokio::spawn(async move {
            let mut log = Log::new(keeps);
            for i in 0..count {
                send.send(i).await.unwrap();
                log.tell(1, 0, i);
            }
            log
        }));
        let take = take.clone();
        tasks.push(tokio::spawn(async move {
            let mut log = Log::new(keeps);
            for _ in 0..count {
                let i = take.recv().await.unwrap();
                log.tell(2, 0, i);
            }
            log
        }));
    }
    let mut logs = Vec::new();
    for task in tasks {
        logs.push(task.await.unwrap());
    }
    logs
}

async fn spawn(count: u64, keeps: bool) -> Vec<Log> {
    let mut own = Log::new(keeps);
    let mut logs = Vec::new();
    for i in 0..count {
        own.tell(3, i, 0);
        let task = tokio::spawn(async move {
            let mut log = Log::new(keeps);
            log.tell(4, 0, i);
            (i, log)
        });
        let (value, log) = task.await.unwrap();
        assert_eq!(value, i);
        own.tell(5, i, value);
        if keeps {
            logs.push(log);
        }
    }
    logs.push(own);
    logs
}

/// Tells the end of a task that is canceled, once it is dropped.
struct Leaving {
    log: Log,
    to: Option<std::sync::mpsc::Sender<Log>>,
}

impl Drop for Leaving {
    fn drop(&mut self) {
        if let Some(to) = self.to.take() {
            self.log.tell(6, 0, 0);
            let _ = to.send(Log { events: self.log.events.take() });
        }
    }
}

async fn cancel(count: u64, keeps: bool) -> Vec<Log> {
    let (to, ended) = std::sync::mpsc::channel();
    let mut own = Log::new(keeps);
    let mut logs = Vec::new();
    for i in 0..count {
        own.tell(3, i, 0);
        let leaving = Leaving { log: Log::new(keeps), to: keeps.then(|| to.clone()) };
        let task = tokio::spawn(async move {
            let _leaving = leaving;
            std::future::pending::<()>().await
        });
        own.tell(7, i, 0);
        task.abort();
        assert!(task.await.unwrap_err().is_cancelled());
        own.tell(8, i, 0);
        if keeps {
            logs.push(ended.recv().unwrap());
        }
    }
    logs.push(own);
    logs
}

fn main() {
    let words: Vec<String> = env::args().collect();
    let (what, workers, count, keeps) = (words[1].clone(), words[2].parse().unwrap(), words[3].parse().unwrap(), words[4] == "log");
    let runtime = tokio::runtime::Builder::new_multi_thread().worker_threads(workers).build().unwrap();
    // the work is a task, so that a worker does it and not the thread that waits for it
    let work = runtime.spawn(async move {
        match what.as_str() {
            "pipe" => pipe(count, keeps).await,
            "spawn" => spawn(count, keeps).await,
            "cancel" => cancel(count, keeps).await,
            other => panic!("no {other}"),
        }
    });
    std::hint::black_box(runtime.block_on(work).unwrap());
}
