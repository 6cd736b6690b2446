//! Unions, the fast decision and both recovery choices.

use crate::{edit, first_edit, put, three};
use njimbaros::{fast_decision, paper_choice, rust_choice, Config, Contents, DepSet, FastDecision, Prepare};
use njimbaros::{RecoveryChoice, Refusal, Reply, Status, Vote};

/// By replica, from 0 on; the rest is nobody.
fn by_replica<T, const COUNT: usize>(given: [T; COUNT]) -> [Option<T>; 7] {
    let mut given = given.into_iter();
    [(); 7].map(|()| given.next())
}

fn marks(replicas: &[usize]) -> [bool; 7] {
    let mut marks = [false; 7];
    for replica in replicas {
        marks[*replica] = true;
    }
    marks
}

fn reply(sequence: u64, dependencies: DepSet) -> Reply {
    Reply { sequence, dependencies }
}

pub(crate) fn unions() {
    let (a, b) = (DepSet::of([Some(1), None, Some(3)]), DepSet::of([Some(2), Some(4), None]));
    let both = DepSet::of([Some(2), Some(4), Some(3)]);
    assert_eq!((a.union(b), b.union(a)), (both, both));
    assert_eq!((a.union(DepSet::EMPTY), DepSet::EMPTY.union(a)), (a, a));
    assert_eq!(both.columns(), [Some(2), Some(4), Some(3), None, None, None, None]);
    assert_eq!(both.to_string(), "[2,4,3,_,_,_,_]");
    let far = DepSet::of([None, None, None, None, None, None, Some(u64::MAX)]);
    assert_eq!(far.union(a).columns(), [Some(1), None, Some(3), None, None, None, Some(254)]);
}

pub(crate) fn fast_decisions() {
    let four = reply(4, DepSet::EMPTY);
    let decide = |replies, silent| fast_decision(three(), false, &replies, &silent);
    assert_eq!(decide(by_replica([four]), marks(&[])), Ok(FastDecision::Wait));
    assert_eq!(decide(by_replica([four, four]), marks(&[])), Ok(FastDecision::Wait));
    assert_eq!(decide(by_replica([four, four]), marks(&[2])), Ok(FastDecision::Accepting(four)));
    assert_eq!(decide(by_replica([four, four, four]), marks(&[])), Ok(FastDecision::Committed(four)));
    let x = reply(4, DepSet::of([Some(1), None, None]));
    let y = reply(5, DepSet::of([None, Some(2), None]));
    let both = reply(5, DepSet::of([Some(1), Some(2), None]));
    assert_eq!(decide(by_replica([x, y]), marks(&[])), Ok(FastDecision::Accepting(both)));
    let of_four = Config { n: 4, own: 0, simple: 2, sup: 2 };
    let decided = fast_decision(of_four, false, &by_replica([x, y, y, x]), &marks(&[]));
    assert_eq!(decided, Ok(FastDecision::Committed(x)));
}

pub(crate) fn fast_path_avoided() {
    let four = reply(4, DepSet::EMPTY);
    let decided = fast_decision(three(), true, &by_replica([four, four, four]), &marks(&[]));
    assert_eq!(decided, Ok(FastDecision::Accepting(four)));
}

/// One call with every reason, and then without the first, and so on.
pub(crate) fn fast_refusals() {
    let (good, over) = (reply(4, DepSet::EMPTY), reply(1 << 32, DepSet::EMPTY));
    let far = |column| reply(1 << 32, DepSet::of([Some(column)]));
    let no_quorum = Config { sup: 4, ..three() };
    let decide = |config, replies, silent| fast_decision(config, false, &replies, &silent);
    let of_four = by_replica([far(32), good, good, good]);
    assert_eq!(decide(no_quorum, of_four, marks(&[])), Err(Refusal::OutsideBounds));
    assert_eq!(decide(three(), of_four, marks(&[])), Err(Refusal::NoReplica));
    assert_eq!(decide(three(), by_replica([far(32), good]), marks(&[3])), Err(Refusal::NoReplica));
    for column in [32, 254, 255, 256, u64::MAX] {
        assert_eq!(decide(three(), by_replica([far(column), good]), marks(&[])), Err(Refusal::BadDependency));
    }
    let in_row_3 = reply(4, DepSet::of([None, None, None, Some(0)]));
    assert_eq!(decide(three(), by_replica([in_row_3, good]), marks(&[])), Err(Refusal::BadDependency));
    assert_eq!(decide(three(), by_replica([over, good]), marks(&[])), Err(Refusal::OverLimit));
}

fn vote(status: Status, contents: Contents) -> Option<Vote> {
    Some(Vote { status, contents })
}

/// Votes of 1 and 2 on a slot of row 0 at the default ballot, both acked: the Rust's choice and the paper's.
fn choices(one: Option<Vote>, two: Option<Vote>) -> [Result<RecoveryChoice, Refusal>; 2] {
    let prepare = Prepare { row: 0, highest: 7, default: 7 };
    let (acks, votes) = (marks(&[1, 2]), [None, one, two, None, None, None, None]);
    [rust_choice(three(), prepare, &acks, &votes), paper_choice(three(), prepare, &acks, &votes)]
}

fn four() -> Contents {
    edit(4, DepSet::of([Some(1), None, None]))
}

pub(crate) fn recovery_choices() {
    use RecoveryChoice::{Accepting, Committed, PreAccepting};
    let pre_accepting = || vote(Status::PreAccepting, four());
    assert_eq!(choices(pre_accepting(), pre_accepting()), [Ok(Accepting(four())), Ok(Accepting(four()))]);
    let null = vote(Status::Null, Contents { sequence: 0, dependencies: DepSet::EMPTY, batch: vec![] });
    assert_eq!(choices(pre_accepting(), null), [Ok(PreAccepting(four())), Ok(Accepting(four()))]);
    let six = Contents { batch: vec![put(5), put(6), put(7), put(8)], ..edit(6, DepSet::of([None, None, Some(31)])) };
    let committed = choices(vote(Status::Committed, four()), vote(Status::Committed, six.clone()));
    assert_eq!(committed, [Ok(Committed(six.clone())), Ok(Committed(six.clone()))]);
    let accepting = choices(vote(Status::Accepting, six.clone()), pre_accepting());
    assert_eq!(accepting, [Ok(Accepting(six.clone())), Ok(Accepting(six))]);
}

pub(crate) fn recovery_without_votes() {
    let no_op = Contents { sequence: 1, dependencies: DepSet::EMPTY, batch: vec![] };
    let chosen = RecoveryChoice::PreAccepting(no_op);
    assert_eq!(choices(None, None), [Ok(chosen.clone()), Ok(chosen)]);
    let (prepare, votes) = (Prepare { row: 0, highest: 7, default: 7 }, [const { None }; 7]);
    assert_eq!(rust_choice(three(), prepare, &marks(&[1]), &votes), Ok(RecoveryChoice::Wait));
    assert_eq!(paper_choice(three(), prepare, &marks(&[1]), &votes), Ok(RecoveryChoice::Wait));
    // at another ballot than the row's default the votes are not counted
    let raised = Prepare { highest: 8, ..prepare };
    let vote = || vote(Status::PreAccepting, four());
    let votes = [None, vote(), vote(), None, None, None, None];
    let chosen = Ok(RecoveryChoice::PreAccepting(four()));
    assert_eq!(rust_choice(three(), raised, &marks(&[1, 2]), &votes), chosen);
    assert_eq!(paper_choice(three(), raised, &marks(&[1, 2]), &votes), chosen);
}

pub(crate) fn recovery_refusals() {
    let refused = |contents, refusal| {
        assert_eq!(choices(vote(Status::PreAccepting, contents), None), [Err(refusal), Err(refusal)]);
    };
    refused(edit(1, DepSet::of([Some(32)])), Refusal::BadDependency);
    refused(edit(1, DepSet::of([None, None, None, Some(0)])), Refusal::BadDependency);
    refused(Contents { batch: vec![put(5); 5], ..first_edit() }, Refusal::BadBatch);
    refused(Contents { batch: vec![put(5); 260], ..first_edit() }, Refusal::BadBatch);
    refused(Contents { batch: vec![put(5), put(256)], ..first_edit() }, Refusal::BadBatch);
    refused(edit(1 << 32, DepSet::EMPTY), Refusal::OverLimit);

    let (prepare, votes) = (Prepare { row: 0, highest: 7, default: 7 }, [const { None }; 7]);
    for choice in [rust_choice, paper_choice] {
        let no_own = Config { own: 3, ..three() };
        assert_eq!(choice(no_own, prepare, &marks(&[1]), &votes), Err(Refusal::OutsideBounds));
        assert_eq!(choice(three(), prepare, &marks(&[3]), &votes), Err(Refusal::NoReplica));
        let in_row_3 = Prepare { row: 3, ..prepare };
        assert_eq!(choice(three(), in_row_3, &marks(&[1]), &votes), Err(Refusal::NoReplica));
        let of_six = [None, None, None, None, None, None, vote(Status::Null, first_edit())];
        assert_eq!(choice(three(), prepare, &marks(&[1]), &of_six), Err(Refusal::NoReplica));
    }
}
