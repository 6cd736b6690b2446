//! One replica of the Rust, with plain data in and out. A part of the Rust's module, since it reads private fields.
use super::*;
use crate::plain::{self, Contents, Deps, Kind, Output, Prepare, Reply, Request, Slot, SlotAt, Store, Table};
use crate::server::LogResult;
use crate::utils::Timer;
use std::future::Future;
use std::pin::pin;
use std::task::{Context, Poll, Waker};

/// The stand-ins never wait, so the first poll has the result.
fn now<F: Future>(work: F) -> F::Output {
    match pin!(work).as_mut().poll(&mut Context::from_waker(Waker::noop())) {
        Poll::Ready(result) => result,
        Poll::Pending => panic!("a future waited"),
    }
}

fn batch_of(batch: &[Request]) -> ReqBatch {
    let request = |r: &Request| match &r.kind {
        Kind::Other => ApiRequest::Conf { id: r.id },
        Kind::Put { key, value } => {
            ApiRequest::Req { id: r.id, cmd: Command::Put { key: key.to_string(), value: value.to_string() } }
        }
        Kind::Get { key } => ApiRequest::Req { id: r.id, cmd: Command::Get { key: key.to_string() } },
    };
    batch.iter().map(|r| (r.client, request(r))).collect()
}

fn plain_request(client: ClientId, request: &ApiRequest) -> Request {
    let number = |s: &String| s.parse().expect("a key or value that was a number");
    let (id, kind) = match request {
        ApiRequest::Conf { id } => (*id, Kind::Other),
        ApiRequest::Req { id, cmd: Command::Put { key, value } } => {
            (*id, Kind::Put { key: number(key), value: number(value) })
        }
        ApiRequest::Req { id, cmd: Command::Get { key } } => (*id, Kind::Get { key: number(key) }),
    };
    Request { client, id, kind }
}

fn plain_contents(seq: SeqNum, deps: &DepSet, reqs: &ReqBatch) -> Contents {
    let batch = reqs.iter().map(|(client, r)| plain_request(*client, r)).collect();
    Contents { seq, deps: deps.0.clone(), batch }
}

fn status_of(status: plain::Status) -> Status {
    match status {
        plain::Status::Null => Status::Null,
        plain::Status::PreAccepting => Status::PreAccepting,
        plain::Status::Accepting => Status::Accepting,
        plain::Status::Committed => Status::Committed,
        plain::Status::Executed => Status::Executed,
    }
}

/// The Rust's Executing is the rules' Executed.
fn plain_status(status: Status) -> plain::Status {
    match status {
        Status::Null => plain::Status::Null,
        Status::PreAccepting => plain::Status::PreAccepting,
        Status::Accepting => plain::Status::Accepting,
        Status::Committed => plain::Status::Committed,
        Status::Executing | Status::Executed => plain::Status::Executed,
    }
}

/// Everything here is within the bounds, where a replica's number is below 7.
fn small(number: usize) -> u8 {
    u8::try_from(number).expect("a number within the bounds")
}

fn unled(n: usize) -> LeaderBookkeeping {
    LeaderBookkeeping {
        pre_accept_acks: Bitmap::new(small(n)),
        pre_accept_replies: BTreeMap::new(),
        accept_acks: Bitmap::new(small(n)),
        exp_prepare_acks: Bitmap::new(small(n)),
        exp_prepare_max_bal: 0,
        exp_prepare_voteds: BTreeMap::new(),
    }
}

fn marked(n: usize, replicas: impl Iterator<Item = usize>) -> Bitmap {
    let mut marks = Bitmap::new(small(n));
    for r in replicas {
        marks.set(small(r), true).expect("a replica of the population");
    }
    marks
}

fn timers(config: &plain::Config, silent: &[usize]) -> HashMap<ReplicaId, Timer> {
    (0..config.n).filter(|r| *r != config.own).map(|r| (small(r), Timer(silent.contains(&r)))).collect()
}

/// Takes no memory and frees none where the batch is the same: what is timed next is not to meet a heap that was stirred.
fn put_back(held: &mut Instance, before: &Instance) {
    if held.reqs != before.reqs {
        held.reqs.clone_from(&before.reqs);
    }
    held.deps.0.clone_from(&before.deps.0);
    held.leader_bk.clone_from(&before.leader_bk);
    held.replica_bk.clone_from(&before.replica_bk);
    held.bal = before.bal;
    held.status = before.status;
    held.seq = before.seq;
    held.external = before.external;
    held.avoid_fast_path = before.avoid_fast_path;
    held.wal_offset = before.wal_offset;
}

/// The Rust's union.
pub fn union(a: &Deps, b: &Deps) -> Deps {
    let mut set = DepSet(a.clone());
    set.union(&DepSet(b.clone()));
    set.0
}

/// What the Rust identifies for a batch, after it refreshed the key columns by each store in turn.
pub fn identified(n: usize, stores: &[(SlotAt, Vec<Request>)], batch: &[Request]) -> Deps {
    let mut highest = HashMap::new();
    for ((row, col), stored) in stores {
        EPaxosReplica::refresh_highest_cols(SlotIdx(small(*row), *col), &batch_of(stored), small(n), &mut highest);
    }
    EPaxosReplica::identify_deps(&batch_of(batch), small(n), &highest).0
}

/// What a fast decision is asked with, in the Rust's own form.
pub struct FastAsked {
    config: plain::Config,
    avoided: bool,
    leader: LeaderBookkeeping,
    timers: HashMap<ReplicaId, Timer>,
}

/// What it answers, in the Rust's own form.
pub struct FastAnswer(Option<(Status, SeqNum, DepSet)>);

impl FastAsked {
    pub fn new(config: &plain::Config, avoided: bool, replies: &[Reply], silent: &[usize]) -> Self {
        let mut leader = unled(config.n);
        leader.pre_accept_acks = marked(config.n, replies.iter().map(|r| r.replica));
        leader.pre_accept_replies =
            replies.iter().map(|r| (small(r.replica), (r.seq, DepSet(r.deps.clone())))).collect();
        FastAsked { config: *config, avoided, leader, timers: timers(config, silent) }
    }

    pub fn decide(&self) -> FastAnswer {
        let c = &self.config;
        FastAnswer(EPaxosReplica::fast_quorum_eligibility(
            small(c.own),
            self.avoided,
            &self.leader,
            &self.timers,
            small(c.n),
            small(c.simple),
            small(c.sup),
        ))
    }
}

impl FastAnswer {
    pub fn plain(self) -> Option<(plain::Status, u64, Deps)> {
        self.0.map(|(status, seq, deps)| (plain_status(status), seq, deps.0))
    }
}

/// The Rust's fast decision.
pub fn fast(
    config: &plain::Config,
    avoided: bool,
    replies: &[Reply],
    silent: &[usize],
) -> Option<(plain::Status, u64, Deps)> {
    FastAsked::new(config, avoided, replies, silent).decide().plain()
}

/// What a recovery choice is asked with, in the Rust's own form.
pub struct ChoiceAsked {
    row: ReplicaId,
    leader: LeaderBookkeeping,
    n: u8,
    simple: u8,
    default: Ballot,
}

/// What it answers, in the Rust's own form.
pub struct ChoiceAnswer(Option<(Status, SeqNum, DepSet, ReqBatch)>);

impl ChoiceAsked {
    pub fn new(n: usize, simple: usize, prepare: &Prepare) -> Self {
        let mut leader = unled(n);
        leader.exp_prepare_acks = marked(n, prepare.acks.iter().copied());
        leader.exp_prepare_max_bal = prepare.highest;
        for v in &prepare.votes {
            let c = &v.contents;
            let voted = (status_of(v.status), c.seq, DepSet(c.deps.clone()), batch_of(&c.batch));
            leader.exp_prepare_voteds.insert(small(v.replica), voted);
        }
        ChoiceAsked { row: small(prepare.row), leader, n: small(n), simple: small(simple), default: prepare.default }
    }

    pub fn choose(&self) -> ChoiceAnswer {
        DEFAULT_BALLOT.set(self.default);
        ChoiceAnswer(EPaxosReplica::exp_prepare_next_step(self.row, &self.leader, self.n, self.simple))
    }
}

impl ChoiceAnswer {
    pub fn plain(self) -> Option<(plain::Status, Contents)> {
        self.0.map(|(status, seq, deps, reqs)| (plain_status(status), plain_contents(seq, &deps, &reqs)))
    }
}

/// The Rust's recovery choice.
pub fn choice(n: usize, simple: usize, prepare: &Prepare) -> Option<(plain::Status, Contents)> {
    ChoiceAsked::new(n, simple, prepare).choose().plain()
}

/// A message in the Rust's own form: making it is no part of hearing it.
#[derive(Clone)]
pub struct Prepared(PeerMsg);

impl Prepared {
    pub fn store(what: Store, (row, col): SlotAt, ballot: u64, contents: &Contents) -> Self {
        let slot = SlotIdx(small(row), col);
        let (seq, deps, reqs) = (contents.seq, DepSet(contents.deps.clone()), batch_of(&contents.batch));
        Prepared(match what {
            Store::PreAccept => PeerMsg::PreAccept { slot, ballot, seq, deps, reqs },
            Store::Accept => PeerMsg::Accept { slot, ballot, seq, deps, reqs },
            Store::CommitNotice => PeerMsg::CommitNotice { slot, ballot, seq, deps, reqs },
        })
    }

    pub fn accept_reply((row, col): SlotAt, ballot: u64) -> Self {
        Prepared(PeerMsg::AcceptReply { slot: SlotIdx(small(row), col), ballot })
    }

    pub fn exp_prepare((row, col): SlotAt, new_ballot: u64) -> Self {
        Prepared(PeerMsg::ExpPrepare { slot: SlotIdx(small(row), col), new_ballot })
    }
}

fn instance_of(n: usize, slot: &Slot) -> Instance {
    let (c, marks) = (&slot.contents, |bits| Bitmap { size: small(n), bits });
    Instance {
        bal: slot.ballot,
        status: status_of(slot.status),
        seq: c.seq,
        deps: DepSet(c.deps.clone()),
        reqs: batch_of(&c.batch),
        leader_bk: slot.marks.map(|bits| LeaderBookkeeping { accept_acks: marks(bits), ..unled(n) }),
        replica_bk: slot.source.map(|peer| ReplicaBookkeeping { source: small(peer) }),
        external: false,
        avoid_fast_path: false,
        wal_offset: 0,
    }
}

/// A replica that begins empty.
pub struct Replica(EPaxosReplica);

impl Replica {
    pub fn new(config: &plain::Config) -> Self {
        Replica(EPaxosReplica {
            id: small(config.own),
            population: small(config.n),
            simple_quorum_cnt: small(config.simple),
            super_quorum_cnt: small(config.sup),
            config: Config { logger_sync: false },
            start_col: 0,
            insts: vec![Vec::new(); config.n],
            highest_cols: HashMap::new(),
            commit_bars: vec![0; config.n],
            exec_bars: vec![0; config.n],
            wal_offset: 0,
            storage_hub: StorageHub { got: Vec::new() },
            transport_hub: TransportHub { got: Vec::new() },
            state_machine: StateMachine { got: Vec::new() },
            external_api: ExternalApi,
            heartbeater: Heartbeater { timers: timers(config, &[]) },
        })
    }

    /// One that holds a table. What has run has been reported to it, so that its own bars stand behind that.
    pub fn holding(config: &plain::Config, table: &Table) -> Self {
        let mut held = Replica::new(config);
        let instances = |row: &Vec<Slot>| row.iter().map(|slot| instance_of(config.n, slot)).collect();
        let run = |row: &Vec<Slot>| row.iter().take_while(|slot| slot.status == plain::Status::Executed).count();
        held.0.insts = table.rows.iter().map(instances).collect();
        held.0.highest_cols = table.keys.iter().map(|(k, set)| (k.to_string(), DepSet(set.clone()))).collect();
        held.0.commit_bars.clone_from(&table.bars);
        held.0.exec_bars = table.rows.iter().map(run).collect();
        held
    }

    /// Makes the table that of another that has as many slots, and empties the hubs.
    pub fn put_back(&mut self, other: &Replica) {
        for (row, before) in self.0.insts.iter_mut().zip(&other.0.insts) {
            assert_eq!(row.len(), before.len(), "as many slots as before");
            row.iter_mut().zip(before).for_each(|(held, before)| put_back(held, before));
        }
        if self.0.highest_cols != other.0.highest_cols {
            self.0.highest_cols.clone_from(&other.0.highest_cols);
        }
        self.0.commit_bars.clone_from(&other.0.commit_bars);
        self.0.exec_bars.clone_from(&other.0.exec_bars);
        self.0.storage_hub.got.clear();
        self.0.transport_hub.got.clear();
        self.0.state_machine.got.clear();
    }

    pub fn own(&self) -> usize {
        self.0.id as usize
    }

    fn instance(&self, (row, col): SlotAt) -> Option<&Instance> {
        self.0.insts[row].get(col)
    }

    pub fn slot(&self, at: SlotAt) -> Option<Slot> {
        self.instance(at).map(|i| Slot {
            ballot: i.bal,
            status: plain_status(i.status),
            contents: plain_contents(i.seq, &i.deps, &i.reqs),
            source: i.replica_bk.as_ref().map(|b| b.source as usize),
            marks: i.leader_bk.as_ref().map(|l| l.accept_acks.bits),
        })
    }

    pub fn table(&self) -> Table {
        let columns = |row: usize| 0..self.0.insts[row].len();
        let row = |row: usize| columns(row).filter_map(|col| self.slot((row, col))).collect();
        Table {
            rows: (0..self.0.insts.len()).map(row).collect(),
            bars: self.0.commit_bars.clone(),
            keys: self.0.highest_cols.iter().map(|(k, d)| (k.parse().expect("a key"), d.0.clone())).collect(),
        }
    }

    /// One and the highest sequence of what the batch waits for.
    pub fn next_sequence(&self, batch: &[Request]) -> u64 {
        let mine = EPaxosReplica::identify_deps(&batch_of(batch), self.0.population, &self.0.highest_cols);
        1 + self.0.max_seq_num(&mine)
    }

    pub fn hear(&mut self, peer: usize, message: Prepared) {
        now(self.0.handle_msg_recv(small(peer), message.0)).expect("a message within the bounds");
    }

    pub fn store(&mut self, what: Store, peer: usize, at: SlotAt, ballot: u64, contents: &Contents) {
        self.hear(peer, Prepared::store(what, at, ballot, contents));
    }

    pub fn accept_reply(&mut self, peer: usize, at: SlotAt, ballot: u64) {
        self.hear(peer, Prepared::accept_reply(at, ballot));
    }

    pub fn exp_prepare(&mut self, peer: usize, at: SlotAt, new_ballot: u64) {
        self.hear(peer, Prepared::exp_prepare(at, new_ballot));
    }

    pub fn logged(&mut self, (row, col): SlotAt, status: plain::Status) {
        let id = EPaxosReplica::make_log_action_id(SlotIdx(small(row), col), status_of(status));
        let now_size = self.0.wal_offset + 1;
        now(self.0.handle_log_result(id, LogResult::Append { now_size })).expect("a log event within the bounds");
    }

    pub fn attempt(&mut self, (row, col): SlotAt) -> bool {
        now(self.0.attempt_execution(SlotIdx(small(row), col), false)).expect("an attempt within the bounds")
    }

    pub fn lead(&mut self, (row, col): SlotAt) {
        self.0.insts[row][col].leader_bk = Some(unled(self.0.population as usize));
    }

    /// Runs `work`, then puts the slot back as it was; what was handed to the hubs meanwhile is the result.
    pub fn undone(&mut self, (row, col): SlotAt, work: impl FnOnce(&mut Self)) -> Vec<Output> {
        let before = self.0.insts[row][col].clone();
        work(self);
        let wal_offset = self.0.insts[row][col].wal_offset;
        self.0.insts[row][col] = Instance { wal_offset, ..before };
        self.take_output()
    }

    pub fn take_output(&mut self) -> Vec<Output> {
        let logged = std::mem::take(&mut self.0.storage_hub.got).into_iter().map(log_record);
        let sent = std::mem::take(&mut self.0.transport_hub.got);
        logged.chain(sent.into_iter().map(|(m, to)| self.message_record(m, to.map(usize::from)))).collect()
    }

    fn message_record(&self, message: PeerMsg, to: Option<usize>) -> Output {
        match (message, to) {
            (PeerMsg::CommitNotice { slot, ballot, seq, deps, reqs }, None) => {
                Output::CommitNotice { slot: slot.unpack(), ballot, contents: plain_contents(seq, &deps, &reqs) }
            }
            (PeerMsg::PreAcceptReply { slot, ballot, seq, deps }, Some(to)) => {
                let Slot { status, contents, .. } = self.answering(slot);
                let contents = Contents { seq, deps: deps.0, ..contents };
                Output::PreAcceptReply { to, slot: slot.unpack(), ballot, status, contents }
            }
            (PeerMsg::AcceptReply { slot, ballot }, Some(to)) => {
                let Slot { status, contents, .. } = self.answering(slot);
                Output::AcceptReply { to, slot: slot.unpack(), ballot, status, contents }
            }
            (
                PeerMsg::ExpPrepareReply {
                    slot,
                    new_ballot,
                    voted_bal,
                    voted_status,
                    voted_seq,
                    voted_deps,
                    voted_reqs,
                },
                Some(to),
            ) => Output::ExpPrepareReply {
                to,
                slot: slot.unpack(),
                new_ballot,
                ballot: voted_bal,
                status: plain_status(voted_status),
                contents: plain_contents(voted_seq, &voted_deps, &voted_reqs),
            },
            (message, to) => Output::Beyond(format!("{message:?} to {to:?}")),
        }
    }

    /// The slot that a reply is about, which has what the reply lacks.
    fn answering(&self, slot: SlotIdx) -> Slot {
        self.slot(slot.unpack()).expect("a reply about a slot that is there")
    }

    /// The slots whose commands were handed to the state machine, in order.
    pub fn take_submitted(&mut self) -> Vec<SlotAt> {
        let mut slots = Vec::new();
        for id in std::mem::take(&mut self.0.state_machine.got) {
            let (slot, place) = EPaxosReplica::split_command_id(id);
            if place == 0 || slots.last() != Some(&slot.unpack()) {
                slots.push(slot.unpack());
            }
        }
        slots
    }
}

fn log_record(entry: WalEntry) -> Output {
    let (status, (slot, ballot, seq, deps, reqs)) = match entry {
        WalEntry::PreAcceptSlot { slot, ballot, seq, deps, reqs } => {
            (plain::Status::PreAccepting, (slot, ballot, seq, deps, reqs))
        }
        WalEntry::AcceptSlot { slot, ballot, seq, deps, reqs } => {
            (plain::Status::Accepting, (slot, ballot, seq, deps, reqs))
        }
        WalEntry::CommitSlot { slot, ballot, seq, deps, reqs } => {
            (plain::Status::Committed, (slot, ballot, seq, deps, reqs))
        }
    };
    Output::Log { status, slot: slot.unpack(), ballot, contents: plain_contents(seq, &deps, &reqs) }
}
