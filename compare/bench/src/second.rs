//! The calls of the reference, each over the same lent bytes as the archive's.
//! Where a record is involved, the same call on the reference's own record stands behind them.

use crate::lent::Lent;
use reference::calls;

/// Defines a call by its name, which the reference has too, and what it passes on.
macro_rules! calls {
    ($($name:ident($lent:ident: $($argument:expr),*);)*) => { $(
        pub extern "C-unwind" fn $name($lent: &mut Lent) -> u32 {
            calls::$name($($argument),*)
        }
    )* };
}

calls! {
    read_packet(l: l.numbers[0], &l.bytes, &mut l.out);
    write_query(l: l.numbers[0], &mut l.out);
    write_reset(l: l.numbers[0], &mut l.out);
    write_packet(l: l.numbers[0], l.numbers[1], &l.bytes, l.numbers[2], &mut l.out);
    write_transmission(l: l.numbers[0], l.numbers[1], &l.bytes, &mut l.out);
    write_reply(l: l.numbers[0], l.numbers[1], l.numbers[2], l.numbers[3], &mut l.out);
    read_reply(l: l.numbers[0], &l.bytes, &mut l.out);
    judge(l: &l.bytes);
    forecast(l: &l.bytes, l.numbers[0], l.numbers[1], &mut l.out);
    power_on(l: &mut l.image);
    reset(l: &mut l.image);
    receive(l: &mut l.image, l.numbers[0], &l.bytes, &mut l.out);
    step(l: &mut l.image, &mut l.out);
    reply(l: &l.image, l.numbers[0], l.numbers[1], &mut l.out);
    copy_body(l: &l.image, &mut l.out);
    repeat(l: &l.bytes, l.numbers[0].into(), l.numbers[1].into());
    version(_l:);
}

/// The calls on the reference's own record: 0 is yes, 1 is no.
pub mod record {
    use crate::lent::Lent;
    use reference::no::No;
    use reference::sign::Sign;
    use std::hint::black_box;

    /// Has the result looked at, so that all of it is made.
    fn said<T>(result: Result<T, No>) -> u32 {
        black_box(&result).is_err().into()
    }

    pub extern "C-unwind" fn power_on(lent: &mut Lent) -> u32 {
        lent.sign = Sign::power_on();
        0
    }

    pub extern "C-unwind" fn reset(lent: &mut Lent) -> u32 {
        said(lent.sign.reset())
    }

    pub extern "C-unwind" fn receive(lent: &mut Lent) -> u32 {
        said(lent.sign.receive(lent.numbers[0], &lent.bytes))
    }

    pub extern "C-unwind" fn step(lent: &mut Lent) -> u32 {
        said(lent.sign.step())
    }

    pub extern "C-unwind" fn reply(lent: &mut Lent) -> u32 {
        said(lent.sign.reply(lent.numbers[0], lent.numbers[1] != 0, &mut lent.out))
    }

    pub extern "C-unwind" fn copy_body(lent: &mut Lent) -> u32 {
        said(lent.sign.copy_body(&mut lent.out))
    }
}
