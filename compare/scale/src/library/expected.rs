//! What the library must answer, by the original's reply.

use super::answer::{Area, Counted, Located, Verdict};
use requests::locate::Place;
use requests::reply::Reply;

/// A refusal has nothing else to say.
impl From<Reply<bool>> for Verdict {
    fn from(reply: Reply<bool>) -> Verdict {
        let (reply, yes) = said(reply);
        Verdict { reply, yes }
    }
}

impl From<Reply<Place>> for Located {
    fn from(reply: Reply<Place>) -> Located {
        let (reply, place) = said(reply.map(|place| place as u8));
        Located { reply, place }
    }
}

impl From<Reply<i64>> for Area {
    fn from(reply: Reply<i64>) -> Area {
        let (reply, value) = said(reply);
        Area { reply, value }
    }
}

impl From<Reply<usize>> for Counted {
    fn from(reply: Reply<usize>) -> Counted {
        let (reply, count) = said(reply);
        Counted { reply, count }
    }
}

fn said<T: Default>(reply: Reply<T>) -> (u32, T) {
    match reply {
        Ok(value) => (0, value),
        Err(refusal) => (refusal.into(), T::default()),
    }
}
