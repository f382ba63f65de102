//! Two designers on shared lists: every answer, every count, every state and every word agree with the second program, and
//! what one designer gets is the same without the other's calls.

#[allow(dead_code)]
#[path = "agrees/here.rs"]
mod here;
#[allow(dead_code)]
#[path = "agrees/marked.rs"]
mod marked;
#[allow(dead_code)]
#[path = "agrees/records.rs"]
mod records;

use here::{patch_here, settings_here};
use marked::marked;
use records::{known, records};
use reference::job::Version;
use reference::random::Random;
use reference::shared_lists::{self, ShareAnswer};
use yoktvarim::shared::{
    ClearAnswer, Designer, DrawAnswer, Quota, QuotasTooLarge, Share, Shared, SharedList,
};

const DESIGNERS: [Designer; 2] = [Designer::First, Designer::Second];

#[derive(Clone, Copy, Debug)]
enum Request {
    Draw(reference::Patch, reference::Settings),
    Clear,
}

/// What one designer asks for, lent the two lists of the session or others of these lengths.
#[derive(Clone, Copy, Debug)]
struct Call {
    by: usize,
    request: Request,
    other_lists: Option<[usize; 2]>,
}

#[derive(Clone, Copy, Debug, PartialEq)]
enum Answer {
    Drew(DrawAnswer),
    Cleared(ClearAnswer),
}

/// The state and both lists of the two programs.
struct Session {
    shared: Shared,
    vertices: Vec<u32>,
    indices: Vec<u16>,
    there: reference::State,
    vertices_there: Vec<u32>,
    indices_there: Vec<u16>,
}

fn list_here(list: reference::SharedList) -> SharedList {
    SharedList {
        length: list.length,
        shares: list.shares.map(|share| Share {
            quota: share.quota,
            used: share.used,
        }),
    }
}

fn state_here(state: &reference::State) -> Shared {
    Shared {
        vertices: list_here(state.vertices),
        indices: list_here(state.indices),
    }
}

fn answer_here(request: &Request, answer: ShareAnswer) -> Answer {
    match (request, answer) {
        (Request::Clear, ShareAnswer::Cleared) => Answer::Cleared(ClearAnswer::Cleared),
        (Request::Clear, ShareAnswer::BadState) => Answer::Cleared(ClearAnswer::BadState),
        (_, ShareAnswer::Drawn { points, indices }) => {
            Answer::Drew(DrawAnswer::Drawn { points, indices })
        }
        (_, ShareAnswer::Discarded) => Answer::Drew(DrawAnswer::Discarded),
        (_, ShareAnswer::NoRoomForVertices) => Answer::Drew(DrawAnswer::NoRoomForVertices),
        (_, ShareAnswer::NoRoomForIndices) => Answer::Drew(DrawAnswer::NoRoomForIndices),
        (_, ShareAnswer::BadTop) => Answer::Drew(DrawAnswer::BadTop),
        (_, ShareAnswer::TooManyPoints) => Answer::Drew(DrawAnswer::TooManyPoints),
        (_, ShareAnswer::BadState) => Answer::Drew(DrawAnswer::BadState),
        (_, other) => panic!("{other:?} of a request"),
    }
}

fn make_here(
    shared: &mut Shared,
    call: &Call,
    vertices: &mut [u32],
    indices: &mut [u16],
) -> Answer {
    let designer = DESIGNERS[call.by];
    match &call.request {
        Request::Draw(patch, settings) => Answer::Drew(shared.draw(
            designer,
            &patch_here(patch),
            &settings_here(settings),
            vertices,
            indices,
        )),
        Request::Clear => Answer::Cleared(shared.clear(designer, vertices, indices)),
    }
}

fn make_there(
    state: &mut reference::State,
    call: &Call,
    vertices: &mut [u32],
    indices: &mut [u16],
) -> Answer {
    let answer = match &call.request {
        Request::Draw(patch, settings) => {
            shared_lists::draw(state, call.by, patch, settings, vertices, indices)
        }
        Request::Clear => {
            shared_lists::clear(state, call.by, vertices.len() as u64, indices.len() as u64)
        }
    };
    answer_here(&call.request, answer)
}

impl Session {
    /// Both programs with this state, on marked lists of these lengths.
    fn with(there: reference::State, vertex_words: usize, index_words: usize) -> Session {
        Session {
            shared: state_here(&there),
            vertices: marked(vertex_words),
            indices: marked(index_words),
            there,
            vertices_there: marked(vertex_words),
            indices_there: marked(index_words),
        }
    }

    /// A start by both programs.
    fn start(vertex_words: usize, index_words: usize, quotas: [[u64; 2]; 2]) -> Session {
        let there = shared_lists::start(vertex_words as u64, index_words as u64, quotas)
            .expect("quotas that fit");
        let session = Session::with(there, vertex_words, index_words);
        let started = Shared::start(&session.vertices, &session.indices, quotas_here(quotas));
        assert_eq!(started, Ok(session.shared));
        session
    }

    /// One call by both programs: the answer, the state and every word have to agree.
    fn make(&mut self, call: &Call) -> Answer {
        let (answer, answer_there) = match call.other_lists {
            None => (
                make_here(
                    &mut self.shared,
                    call,
                    &mut self.vertices,
                    &mut self.indices,
                ),
                make_there(
                    &mut self.there,
                    call,
                    &mut self.vertices_there,
                    &mut self.indices_there,
                ),
            ),
            Some([vertex_words, index_words]) => {
                let (mut vertices, mut indices) = (marked(vertex_words), marked(index_words));
                let answers = (
                    make_here(&mut self.shared, call, &mut vertices, &mut indices),
                    make_there(
                        &mut self.there,
                        call,
                        &mut marked(vertex_words),
                        &mut marked(index_words),
                    ),
                );
                assert!(
                    marked::is_untouched(&vertices) && marked::is_untouched(&indices),
                    "{call:?}"
                );
                answers
            }
        };
        assert_eq!(answer, answer_there, "{call:?}");
        assert_eq!(self.shared, state_here(&self.there), "{call:?}");
        assert!(self.vertices == self.vertices_there, "{call:?}");
        assert!(self.indices == self.indices_there, "{call:?}");
        answer
    }

    /// What a designer has: the own numbers of the state and the words of both parts.
    fn view(&self, by: usize) -> (Share, Share, &[u32], &[u16]) {
        let bounds = |list: &SharedList| {
            let first = list.shares[0].quota as usize;
            let second = list.shares[1].quota as usize;
            [0..first, first..first + second][by].clone()
        };
        (
            self.shared.vertices.shares[by],
            self.shared.indices.shares[by],
            &self.vertices[bounds(&self.shared.vertices)],
            &self.indices[bounds(&self.shared.indices)],
        )
    }
}

fn quotas_here(quotas: [[u64; 2]; 2]) -> [Quota; 2] {
    quotas.map(|[vertices, indices]| Quota { vertices, indices })
}

/// Random calls of both designers: mostly drawing, sometimes clearing, sometimes with lists of other lengths.
fn calls(random: &mut Random, seed: u64, vertex_words: usize, index_words: usize) -> Vec<Call> {
    records(seed, 60, Version::Two)
        .iter()
        .filter_map(known)
        .map(|(patch, settings)| Call {
            by: random.below(2) as usize,
            request: match random.below(6) {
                0 => Request::Clear,
                _ => Request::Draw(patch, settings),
            },
            other_lists: (random.below(8) == 0).then(|| {
                let off = random.below(3) as usize;
                [
                    vertex_words + off % 2,
                    (index_words + off / 2).saturating_sub(1 - off.min(1)),
                ]
            }),
        })
        .collect()
}

#[test]
fn sequences_agree_and_neither_designer_shows() {
    let mut drawn = [0; 2];
    for seed in 0..300 {
        let mut random = Random::new(seed);
        let (vertex_words, index_words) =
            (random.below(12_000) as usize, random.below(20_000) as usize);
        let mut half = |words: usize| {
            let first = random.below(words as u64 + 1);
            let left = words as u64 - first;
            [first, left - random.below(left / 4 + 1)]
        };
        let (v, i) = (half(vertex_words), half(index_words));
        let quotas = [[v[0], i[0]], [v[1], i[1]]];
        let calls = calls(&mut random, seed, vertex_words, index_words);

        let mut session = Session::start(vertex_words, index_words, quotas);
        let answers: Vec<Answer> = calls.iter().map(|call| session.make(call)).collect();
        for by in [0, 1] {
            // The same own calls, without the other's, and from a start that gives the other nothing.
            let own =
                |(call, answer): (&Call, &Answer)| (call.by == by).then_some((*call, *answer));
            let mut alone = Session::start(vertex_words, index_words, quotas);
            let mut only = quotas;
            only[1 - by] = [0, 0];
            let mut without_other = Session::start(vertex_words, index_words, only);
            for (call, answer) in calls.iter().zip(&answers).filter_map(own) {
                assert_eq!(alone.make(&call), answer, "seed {seed}, {call:?}");
                assert_eq!(without_other.make(&call), answer, "seed {seed}, {call:?}");
                drawn[by] += usize::from(matches!(answer, Answer::Drew(DrawAnswer::Drawn { .. })));
            }
            assert!(
                alone.view(by) == session.view(by),
                "seed {seed}, designer {by}"
            );
        }
    }
    assert!(drawn.iter().all(|times| *times > 500), "{drawn:?}");
}

#[test]
fn a_part_has_up_to_65535_points() {
    let patch = reference::Patch::Quads {
        outer: [64.0; 4],
        inner: [64.0; 2],
    };
    let settings = reference::Settings {
        spacing: reference::Spacing::Equal,
        vertex_order: reference::VertexOrder::Clockwise,
        domain_origin: reference::DomainOrigin::UpperLeft,
        point_mode: true,
        top: 64,
    };
    let draw = |by| Call {
        by,
        request: Request::Draw(patch, settings),
        other_lists: None,
    };
    // 15 patches of 4,225 points; the 16th would be too many, in a part that has no room for it either.
    let part = [15 * 12_675 + 1, 15 * 4_225 + 1];
    let mut session = Session::start(2 * part[0] as usize, 2 * part[1] as usize, [part, part]);
    let drawn = Answer::Drew(DrawAnswer::Drawn {
        points: 4_225,
        indices: 4_225,
    });
    for _ in 0..15 {
        assert_eq!(session.make(&draw(1)), drawn);
    }
    assert_eq!(
        session.make(&draw(1)),
        Answer::Drew(DrawAnswer::TooManyPoints)
    );
    assert_eq!(session.make(&draw(0)), drawn);
    let last = part[0] as usize + 15 * 12_675 - 1;
    assert!(session.vertices[last] != 0xDEAD_BEEF && session.vertices[last + 1] == 0xDEAD_BEEF);
    assert_eq!(session.indices[part[1] as usize + 15 * 4_225 - 1], 63_374);
}

/// A number that a state of a list of this length may have, or one far from it.
fn near(random: &mut Random, length: u64) -> u64 {
    match random.below(12) {
        0 => u64::MAX - random.below(3),
        1 => length + random.below(3),
        2 => random.below(u64::MAX),
        3 => length / 2,
        _ => 3 * random.below(length / 6 + 1),
    }
}

fn any_list(random: &mut Random, length: u64) -> reference::SharedList {
    let shares = [0; 2].map(|_| reference::Share {
        quota: near(random, length),
        used: near(random, length).min(near(random, length)),
    });
    let length = match random.below(16) {
        0 => near(random, length),
        _ => length,
    };
    reference::SharedList { length, shares }
}

#[test]
fn any_numbers_may_be_a_state() {
    let mut random = Random::new(11);
    let calls = calls(&mut random, 11, 600, 900);
    for turn in 0..20_000 {
        let call = &calls[turn % calls.len()];
        let state = reference::State {
            vertices: any_list(&mut random, 600),
            indices: any_list(&mut random, 900),
        };
        Session::with(state, 600, 900).make(call);
    }
}

#[test]
fn quotas_up_to_the_largest_number() {
    let (vertices, indices) = (marked::<u32>(10), marked::<u16>(7));
    let ends = [0, 1, 3, 7, 10, 11, u64::MAX - 10, u64::MAX - 6, u64::MAX];
    for first in ends {
        for second in ends {
            for (a, b) in [(0, 7), (7, 0), (first, second), (u64::MAX, 1)] {
                let quotas = [[first, a], [second, b]];
                let there = shared_lists::start(10, 7, quotas)
                    .map(|state| state_here(&state))
                    .map_err(|answer| assert_eq!(answer, ShareAnswer::QuotasTooLarge));
                let here = Shared::start(&vertices, &indices, quotas_here(quotas));
                assert_eq!(here.map_err(|QuotasTooLarge| ()), there, "{quotas:?}");
            }
        }
    }
}
