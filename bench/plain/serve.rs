//! Commands and their replies.

use crate::cache::{Cache, GetRefusal, SetRefusal};
use crate::classes::ClassTable;
use crate::decider::Decider;
use crate::mover::{self, Counts, Ended};
use crate::moves::Refusal;
use crate::options::Options;
use crate::reply;
use crate::script::Command;
use crate::slabs::Slabs;

/// The turns of a run.
const MOST_TURNS: u64 = 1_000_000;

/// A turn past the most of a run was asked for.
pub struct TurnsAreUp;

pub struct Server {
    cache: Cache,
    decider: Decider,
    turns: u64,
}

impl Server {
    pub fn new(table: ClassTable, options: &Options) -> Server {
        let decider = Decider::new(table.sizes.len());
        Server {
            cache: Cache::new(Slabs::new(table), options.automove),
            decider,
            turns: 0,
        }
    }

    /// Does a command and adds its reply.
    pub fn serve(&mut self, command: &Command, reply: &mut Vec<u8>) -> Result<(), TurnsAreUp> {
        match *command {
            Command::Set { key, count, base } => {
                reply::line(reply, self.set(key, count, base), &[key])
            }
            Command::Get { worker, key } => self.get(worker, key, reply),
            Command::Hold { worker, key } => reply::line(reply, self.hold(worker, key), &[key]),
            Command::Drop { worker, key } => self.let_go(worker, key, reply),
            Command::Delete { key } => found(reply, self.cache.delete(key), "DELETED", key),
            Command::Touch { key } => found(reply, self.cache.touch(key), "TOUCHED", key),
            Command::Reassign {
                source,
                destination,
            } => {
                reply::line(reply, self.reassign(source, destination), &[]);
            }
            Command::Automove { mode } => {
                self.cache.automove = mode;
                reply::line(reply, "OK", &[]);
            }
            Command::Window => self.window(reply),
            Command::Turn { most } => self.turn(most, reply)?,
            Command::Stats => self.stats(reply),
            Command::StatsSlabs => self.stats_slabs(reply),
        }
        Ok(())
    }

    fn set(&mut self, key: u64, count: usize, base: u64) -> &'static str {
        match self.cache.set(key, count, base) {
            Ok(()) => "STORED",
            Err(SetRefusal::TooLarge) => "TOO_LARGE",
            Err(SetRefusal::NoRoom) => "NO_ROOM",
        }
    }

    fn get(&mut self, worker: usize, key: u64, reply: &mut Vec<u8>) {
        match self.cache.get(worker, key) {
            Ok(chunk) => reply::item(reply, "VALUE", key, self.cache.value(chunk)),
            Err(refusal) => reply::line(reply, name(&refusal), &[key]),
        }
    }

    fn hold(&mut self, worker: usize, key: u64) -> &'static str {
        match self.cache.hold(worker, key) {
            Ok(()) => "HELD",
            Err(refusal) => name(&refusal),
        }
    }

    fn let_go(&mut self, worker: usize, key: u64, reply: &mut Vec<u8>) {
        match self.cache.take_hold(worker, key) {
            Some(chunk) => {
                reply::item(reply, "DROPPED", key, self.cache.value(chunk));
                self.cache.let_go(chunk);
            }
            None => reply::line(reply, "NOT_HELD", &[key]),
        }
    }

    fn reassign(&mut self, source: Option<u64>, destination: u64) -> &'static str {
        match self.cache.slabs.begin_move(source, destination) {
            Ok(()) => "OK",
            Err(Refusal::Busy) => "BUSY",
            Err(Refusal::Same) => "SAME",
            Err(Refusal::BadClass) => "BADCLASS",
            Err(Refusal::NoSpare) => "NOSPARE",
        }
    }

    /// The decider is fed in each mode, and acted on in mode 1.
    fn window(&mut self, reply: &mut Vec<u8>) {
        self.cache.slabs.sweep_all();
        let decision = self.decider.feed(self.cache.slabs.classes());
        match decision.filter(|_| self.cache.automove == 1) {
            None => reply::line(reply, "WINDOW none", &[]),
            Some((source, destination)) => {
                let (source, destination) = (source as u64, destination as u64);
                let answer = self.reassign(Some(source), destination);
                reply.extend_from_slice(
                    format!("WINDOW {source} {destination} {answer}\r\n").as_bytes(),
                );
            }
        }
    }

    /// Turns until so many are done, or one is idle or ends the move.
    fn turn(&mut self, most: u64, reply: &mut Vec<u8>) -> Result<(), TurnsAreUp> {
        let mut counts = Counts::default();
        let mut ended = Ended::Went;
        for _ in 0..most {
            if self.turns == MOST_TURNS {
                return Err(TurnsAreUp);
            }
            self.turns += 1;
            ended = mover::turn(&mut self.cache, &mut counts);
            if ended != Ended::Went {
                break;
            }
        }
        let word = match ended {
            Ended::Idle => "TURN IDLE",
            Ended::Went => "TURN WENT",
            Ended::Finished => "TURN FINISHED",
        };
        let Counts {
            cleared,
            rescued,
            evicted,
            busy,
        } = counts;
        reply::line(reply, word, &[cleared, rescued, evicted, busy, 0]);
        Ok(())
    }

    fn stats(&self, reply: &mut Vec<u8>) {
        let slabs = &self.cache.slabs;
        reply::stat(reply, "slab_global_page_pool", slabs.pool.len() as u64);
        reply::stat(
            reply,
            "slab_reassign_running",
            u64::from(slabs.moving.is_some()),
        );
        reply::stat(reply, "slabs_moved", slabs.totals.moved);
        reply::stat(reply, "slab_reassign_rescues", slabs.totals.rescues);
        reply::stat(
            reply,
            "slab_reassign_evictions_nomem",
            slabs.totals.evictions,
        );
        reply::stat(reply, "slab_reassign_busy_items", slabs.totals.busy);
        reply::line(reply, "END", &[]);
    }

    fn stats_slabs(&mut self, reply: &mut Vec<u8>) {
        self.cache.slabs.sweep_all();
        let slabs = &self.cache.slabs;
        let mut active = 0;
        for (place, class) in slabs
            .classes()
            .iter()
            .enumerate()
            .filter(|(_, class)| !class.pages.is_empty())
        {
            let total = class.pages.len() * class.per_page;
            let id = place + 1;
            reply::class_stat(reply, id, "chunk_size", class.size as u64);
            reply::class_stat(reply, id, "chunks_per_page", class.per_page as u64);
            reply::class_stat(reply, id, "total_pages", class.pages.len() as u64);
            reply::class_stat(reply, id, "total_chunks", total as u64);
            reply::class_stat(reply, id, "used_chunks", (total - class.free.len()) as u64);
            reply::class_stat(reply, id, "free_chunks", class.free.len() as u64);
            active += 1;
        }
        reply::stat(reply, "active_slabs", active);
        reply::stat(
            reply,
            "total_malloced",
            (slabs.granted() * slabs.table.page) as u64,
        );
        reply::line(reply, "END", &[]);
    }
}

fn found(reply: &mut Vec<u8>, was_found: bool, word: &str, key: u64) {
    reply::line(reply, if was_found { word } else { "NOT_FOUND" }, &[key]);
}

fn name(refusal: &GetRefusal) -> &'static str {
    match refusal {
        GetRefusal::TooManyHolds => "TOO_MANY_REFS",
        GetRefusal::NotFound => "NOT_FOUND",
    }
}
