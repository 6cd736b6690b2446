//! Stand-in for the module's own mod.rs: the types and small functions that its four files name.
//! The leader's maps are ordered, since replies and votes are read in rising replica number.
use crate::client::ClientId;
use crate::server::{
    ApiRequest, Command, CommandId, CommandResult, ExternalApi, Heartbeater, LogActionId, ReplicaId, StateMachine,
    StorageHub, TransportHub,
};
use crate::utils::{Bitmap, SummersetError};
use std::cell::Cell;
use std::collections::{BTreeMap, HashMap};
use std::{fmt, ops, slice};

#[path = "../../fetched/epaxos/dependency.rs"]
mod dependency;
#[path = "../../fetched/epaxos/durability.rs"]
mod durability;
#[path = "../../fetched/epaxos/execution.rs"]
mod execution;
#[path = "../../fetched/epaxos/messages.rs"]
mod messages;

pub mod replica;

type Ballot = u64;
type SeqNum = u64;
type ReqBatch = Vec<(ClientId, ApiRequest)>;

#[derive(Debug, Clone, Copy, PartialEq, Eq, PartialOrd, Ord)]
enum Status {
    Null,
    PreAccepting,
    Accepting,
    Committed,
    Executing,
    Executed,
}

#[derive(Debug, Clone, Copy, PartialEq, Eq, PartialOrd, Ord, Hash)]
struct SlotIdx(ReplicaId, usize);

impl SlotIdx {
    fn unpack(self) -> (usize, usize) {
        (self.0 as usize, self.1)
    }
}

impl fmt::Display for SlotIdx {
    fn fmt(&self, f: &mut fmt::Formatter) -> fmt::Result {
        write!(f, "{}.{}", self.0, self.1)
    }
}

#[derive(Debug, Clone, PartialEq, Eq)]
struct DepSet(Vec<Option<usize>>);

#[derive(Debug, Clone)]
struct LeaderBookkeeping {
    pre_accept_acks: Bitmap,
    pre_accept_replies: BTreeMap<ReplicaId, (SeqNum, DepSet)>,
    accept_acks: Bitmap,
    exp_prepare_acks: Bitmap,
    exp_prepare_max_bal: Ballot,
    exp_prepare_voteds: BTreeMap<ReplicaId, (Status, SeqNum, DepSet, ReqBatch)>,
}

#[derive(Debug, Clone)]
struct ReplicaBookkeeping {
    source: ReplicaId,
}

#[derive(Debug, Clone)]
struct Instance {
    bal: Ballot,
    status: Status,
    seq: SeqNum,
    deps: DepSet,
    reqs: ReqBatch,
    leader_bk: Option<LeaderBookkeeping>,
    replica_bk: Option<ReplicaBookkeeping>,
    external: bool,
    avoid_fast_path: bool,
    wal_offset: usize,
}

#[derive(Debug, Clone, PartialEq, Eq)]
enum WalEntry {
    PreAcceptSlot { slot: SlotIdx, ballot: Ballot, seq: SeqNum, deps: DepSet, reqs: ReqBatch },
    AcceptSlot { slot: SlotIdx, ballot: Ballot, seq: SeqNum, deps: DepSet, reqs: ReqBatch },
    CommitSlot { slot: SlotIdx, ballot: Ballot, seq: SeqNum, deps: DepSet, reqs: ReqBatch },
}

#[derive(Debug, Clone, PartialEq, Eq)]
enum PeerMsg {
    PreAccept {
        slot: SlotIdx,
        ballot: Ballot,
        seq: SeqNum,
        deps: DepSet,
        reqs: ReqBatch,
    },
    PreAcceptReply {
        slot: SlotIdx,
        ballot: Ballot,
        seq: SeqNum,
        deps: DepSet,
    },
    Accept {
        slot: SlotIdx,
        ballot: Ballot,
        seq: SeqNum,
        deps: DepSet,
        reqs: ReqBatch,
    },
    AcceptReply {
        slot: SlotIdx,
        ballot: Ballot,
    },
    CommitNotice {
        slot: SlotIdx,
        ballot: Ballot,
        seq: SeqNum,
        deps: DepSet,
        reqs: ReqBatch,
    },
    ExpPrepare {
        slot: SlotIdx,
        new_ballot: Ballot,
    },
    ExpPrepareReply {
        slot: SlotIdx,
        new_ballot: Ballot,
        voted_bal: Ballot,
        voted_status: Status,
        voted_seq: SeqNum,
        voted_deps: DepSet,
        voted_reqs: ReqBatch,
    },
    Heartbeat {
        exec_bars: Vec<usize>,
        snap_bar: usize,
    },
}

struct Config {
    logger_sync: bool,
}

pub struct EPaxosReplica {
    id: ReplicaId,
    population: u8,
    simple_quorum_cnt: u8,
    super_quorum_cnt: u8,
    config: Config,
    start_col: usize,
    insts: Vec<Vec<Instance>>,
    highest_cols: HashMap<String, DepSet>,
    commit_bars: Vec<usize>,
    exec_bars: Vec<usize>,
    wal_offset: usize,
    storage_hub: StorageHub<WalEntry>,
    transport_hub: TransportHub<PeerMsg>,
    state_machine: StateMachine,
    external_api: ExternalApi,
    heartbeater: Heartbeater,
}

thread_local! {
    /// A row's default ballot is given to the choice, so whoever asks for a choice sets it before.
    static DEFAULT_BALLOT: Cell<Ballot> = const { Cell::new(0) };
}

/// Row, column and a small number in one word, as the Rust hands them to its hubs.
fn packed(slot: SlotIdx, with: usize) -> u64 {
    (slot.1 as u64) << 16 | u64::from(slot.0) << 8 | with as u64
}

fn unpacked(word: u64) -> (SlotIdx, usize) {
    (SlotIdx((word >> 8) as u8, (word >> 16) as usize), (word & 0xff) as usize)
}

impl EPaxosReplica {
    fn null_instance(&self) -> Instance {
        Instance {
            bal: 0,
            status: Status::Null,
            seq: 0,
            deps: DepSet::empty(self.population),
            reqs: ReqBatch::new(),
            leader_bk: None,
            replica_bk: None,
            external: false,
            avoid_fast_path: false,
            wal_offset: 0,
        }
    }

    fn make_default_ballot(_row: ReplicaId) -> Ballot {
        DEFAULT_BALLOT.get()
    }

    fn make_log_action_id(slot: SlotIdx, status: Status) -> LogActionId {
        packed(slot, status as usize)
    }

    fn split_log_action_id(id: LogActionId) -> (SlotIdx, Status) {
        let (slot, status) = unpacked(id);
        let statuses = [Status::Null, Status::PreAccepting, Status::Accepting, Status::Committed];
        (slot, statuses[status])
    }

    fn make_command_id(slot: SlotIdx, place: usize) -> CommandId {
        packed(slot, place)
    }

    fn split_command_id(id: CommandId) -> (SlotIdx, usize) {
        unpacked(id)
    }

    fn heard_heartbeat(&mut self, _peer: ReplicaId, _bars: Vec<usize>, _snap: usize) -> Result<(), SummersetError> {
        Ok(())
    }
}
