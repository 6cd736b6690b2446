//! Stand-ins for the Rust's server modules: hubs that keep what they are handed, in its order.
use crate::client::ClientId;
use crate::utils::{Bitmap, SummersetError, Timer};
use std::collections::HashMap;
use std::marker::PhantomData;

pub type ReplicaId = u8;
pub type RequestId = u64;
pub type CommandId = u64;
pub type LogActionId = u64;

#[derive(Debug, Clone, PartialEq, Eq)]
pub enum Command {
    Get { key: String },
    Put { key: String, value: String },
}

#[derive(Debug, Clone, PartialEq, Eq)]
pub enum CommandResult {
    Get { value: Option<String> },
    Put { old_value: Option<String> },
}

/// A request that is neither put nor get is the Rust's `Conf`, of which its text shows nothing.
#[derive(Debug, Clone, PartialEq, Eq)]
pub enum ApiRequest {
    Req { id: RequestId, cmd: Command },
    Conf { id: RequestId },
}

#[derive(Debug, Clone, PartialEq, Eq)]
pub struct ApiReply {
    pub id: RequestId,
    pub result: Option<CommandResult>,
}

impl ApiReply {
    pub fn normal(id: RequestId, result: Option<CommandResult>) -> Self {
        ApiReply { id, result }
    }
}

#[derive(Debug)]
pub enum LogAction<E> {
    Append { entry: E, sync: bool },
}

#[derive(Debug)]
pub enum LogResult<E> {
    Append { now_size: usize },
    Discard { of: PhantomData<E> },
}

pub struct StorageHub<E> {
    pub got: Vec<E>,
}

impl<E> StorageHub<E> {
    pub fn submit_action(&mut self, _id: LogActionId, action: LogAction<E>) -> Result<(), SummersetError> {
        let LogAction::Append { entry, .. } = action;
        self.got.push(entry);
        Ok(())
    }
}

/// Messages, each with the replica it goes to, or with none where it goes to all.
pub struct TransportHub<M> {
    pub got: Vec<(M, Option<ReplicaId>)>,
}

impl<M> TransportHub<M> {
    pub fn send_msg(&mut self, message: M, to: ReplicaId) -> Result<(), SummersetError> {
        self.got.push((message, Some(to)));
        Ok(())
    }

    pub fn bcast_msg(&mut self, message: M, _target: Option<Bitmap>) -> Result<(), SummersetError> {
        self.got.push((message, None));
        Ok(())
    }
}

pub struct StateMachine {
    pub got: Vec<CommandId>,
}

impl StateMachine {
    pub fn submit_cmd(&mut self, id: CommandId, _command: Command) -> Result<(), SummersetError> {
        self.got.push(id);
        Ok(())
    }

    pub async fn do_sync_cmd(&mut self, id: CommandId, command: Command) -> Result<(), SummersetError> {
        self.submit_cmd(id, command)
    }
}

pub struct ExternalApi;

impl ExternalApi {
    pub fn has_client(&self, _client: ClientId) -> bool {
        false
    }

    pub fn send_reply(&mut self, _reply: ApiReply, _client: ClientId) -> Result<(), SummersetError> {
        Ok(())
    }
}

pub struct Heartbeater {
    pub timers: HashMap<ReplicaId, Timer>,
}

impl Heartbeater {
    pub fn hear_timers(&self) -> &HashMap<ReplicaId, Timer> {
        &self.timers
    }
}
