//! The calls as safe functions on slices: the archive's, with the prototypes of include/kwadirumpe.h, and those in plain C beside them.

use crate::scope::Pair;

#[repr(C)]
pub struct Answer {
    number: u64,
    value: u64,
}

#[repr(C)]
pub struct Shift {
    number: u64,
    value: i64,
}

type Lent = *const u64;
type Written = *mut u64;

/// One implementation of the calls.
pub struct Calls {
    pub name: &'static str,
    fit: unsafe extern "C" fn(usize, usize, Lent, usize, Lent, usize) -> Answer,
    read: unsafe extern "C" fn(usize, usize, Lent, usize, Lent, usize, usize, Written, usize) -> Answer,
    view: unsafe extern "C" fn(usize, usize, Lent, usize, Lent, usize, usize, Lent, usize) -> Answer,
    shift_at: unsafe extern "C" fn(usize, usize, usize, Lent, usize, usize) -> Shift,
    row: unsafe extern "C" fn(usize, usize, usize, Lent, usize, usize) -> Answer,
    back: unsafe extern "C" fn(usize, usize, usize, Lent, usize, usize) -> Answer,
    add: unsafe extern "C" fn(usize, usize, Written, usize, Lent, usize, Lent, usize) -> Answer,
    strike: unsafe extern "C" fn(usize, usize, Written, usize, Lent, usize, usize) -> Answer,
    change: unsafe extern "C" fn(usize, usize, Written, usize, Lent, usize, usize, usize, u64) -> Answer,
    renumber: unsafe extern "C" fn(usize, usize, usize, Written, usize, Lent, usize, usize, u64) -> Answer,
    combine: unsafe extern "C" fn(usize, Lent, usize, usize, Lent, usize, usize, Lent, usize, Written, usize) -> Answer,
    move_past: unsafe extern "C" fn(usize, Lent, usize, usize, Written, usize, usize, Lent, usize) -> Answer,
}

macro_rules! calls {
    ($all:ident, $name:literal: $fit:ident $read:ident $view:ident $shift:ident $row:ident $back:ident $add:ident $strike:ident
     $change:ident $renumber:ident $combine:ident $move:ident) => {
        extern "C" {
            fn $fit(c: usize, m: usize, layer: Lent, layer_len: usize, keys: Lent, n: usize) -> Answer;
            fn $read(
                c: usize, m: usize, layer: Lent, layer_len: usize, base: Lent, n: usize, j: usize, out: Written, out_len: usize,
            ) -> Answer;
            fn $view(
                c: usize, m: usize, layer: Lent, layer_len: usize, base: Lent, n: usize, j: usize, out: Lent, out_len: usize,
            ) -> Answer;
            fn $shift(c: usize, n: usize, m: usize, layer: Lent, layer_len: usize, s: usize) -> Shift;
            fn $row(c: usize, n: usize, m: usize, layer: Lent, layer_len: usize, s: usize) -> Answer;
            fn $back(c: usize, n: usize, m: usize, layer: Lent, layer_len: usize, r: usize) -> Answer;
            fn $add(
                c: usize, m: usize, layer: Written, layer_len: usize, keys: Lent, n: usize, row: Lent, row_len: usize,
            ) -> Answer;
            fn $strike(c: usize, m: usize, layer: Written, layer_len: usize, keys: Lent, n: usize, r: usize) -> Answer;
            fn $change(
                c: usize, m: usize, layer: Written, layer_len: usize, keys: Lent, n: usize, r: usize, j: usize, v: u64,
            ) -> Answer;
            fn $renumber(
                c: usize, n: usize, m: usize, layer: Written, layer_len: usize, table: Lent, table_len: usize, r: usize, g: u64,
            ) -> Answer;
            fn $combine(
                c: usize, keys: Lent, n: usize, mr: usize, r: Lent, r_len: usize, mw: usize, w: Lent, w_len: usize, out: Written,
                out_len: usize,
            ) -> Answer;
            fn $move(
                c: usize, keys: Lent, n: usize, mx: usize, x: Written, x_len: usize, my: usize, y: Lent, y_len: usize,
            ) -> Answer;
        }
        pub static $all: Calls = Calls {
            name: $name,
            fit: $fit,
            read: $read,
            view: $view,
            shift_at: $shift,
            row: $row,
            back: $back,
            add: $add,
            strike: $strike,
            change: $change,
            renumber: $renumber,
            combine: $combine,
            move_past: $move,
        };
    };
}

calls!(CARD, "the archive": kw_fit kw_read kw_view kw_shift_at kw_row kw_back kw_add kw_strike kw_change kw_renumber kw_combine
       kw_move);
calls!(PLAIN, "plain C": plain_fit plain_read plain_view plain_shift_at plain_row plain_back plain_add plain_strike plain_change
       plain_renumber plain_combine plain_move);

fn pair(a: Answer) -> Pair {
    (a.number, a.value)
}

impl Calls {
    pub fn fit(&self, c: usize, m: usize, layer: &[u64], keys: &[u64]) -> Pair {
        pair(unsafe { (self.fit)(c, m, layer.as_ptr(), layer.len(), keys.as_ptr(), keys.len()) })
    }
    pub fn read(&self, c: usize, m: usize, layer: &[u64], base: &[u64], j: usize, out: &mut [u64]) -> Pair {
        let (l, b) = (layer.as_ptr(), base.as_ptr());
        pair(unsafe { (self.read)(c, m, l, layer.len(), b, base.len(), j, out.as_mut_ptr(), out.len()) })
    }
    pub fn view(&self, c: usize, m: usize, layer: &[u64], base: &[u64], j: usize, out: &[u64]) -> Pair {
        let (l, b) = (layer.as_ptr(), base.as_ptr());
        pair(unsafe { (self.view)(c, m, l, layer.len(), b, base.len(), j, out.as_ptr(), out.len()) })
    }
    pub fn shift_at(&self, c: usize, n: usize, m: usize, layer: &[u64], s: usize) -> (u64, i64) {
        let a = unsafe { (self.shift_at)(c, n, m, layer.as_ptr(), layer.len(), s) };
        (a.number, a.value)
    }
    pub fn row(&self, c: usize, n: usize, m: usize, layer: &[u64], s: usize) -> Pair {
        pair(unsafe { (self.row)(c, n, m, layer.as_ptr(), layer.len(), s) })
    }
    pub fn back(&self, c: usize, n: usize, m: usize, layer: &[u64], r: usize) -> Pair {
        pair(unsafe { (self.back)(c, n, m, layer.as_ptr(), layer.len(), r) })
    }
    pub fn add(&self, c: usize, m: usize, layer: &mut [u64], keys: &[u64], row: &[u64]) -> Pair {
        let (l, k) = (layer.as_mut_ptr(), keys.as_ptr());
        pair(unsafe { (self.add)(c, m, l, layer.len(), k, keys.len(), row.as_ptr(), row.len()) })
    }
    pub fn strike(&self, c: usize, m: usize, layer: &mut [u64], keys: &[u64], r: usize) -> Pair {
        pair(unsafe { (self.strike)(c, m, layer.as_mut_ptr(), layer.len(), keys.as_ptr(), keys.len(), r) })
    }
    pub fn change(&self, c: usize, m: usize, layer: &mut [u64], keys: &[u64], r: usize, j: usize, v: u64) -> Pair {
        pair(unsafe { (self.change)(c, m, layer.as_mut_ptr(), layer.len(), keys.as_ptr(), keys.len(), r, j, v) })
    }
    pub fn renumber(&self, c: usize, n: usize, m: usize, layer: &mut [u64], table: &[u64], r: usize, g: u64) -> Pair {
        let (l, t) = (layer.as_mut_ptr(), table.as_ptr());
        pair(unsafe { (self.renumber)(c, n, m, l, layer.len(), t, table.len(), r, g) })
    }
    pub fn combine(&self, c: usize, keys: &[u64], mr: usize, r: &[u64], mw: usize, w: &[u64], out: &mut [u64]) -> Pair {
        let (k, o) = (keys.as_ptr(), out.as_mut_ptr());
        pair(unsafe { (self.combine)(c, k, keys.len(), mr, r.as_ptr(), r.len(), mw, w.as_ptr(), w.len(), o, out.len()) })
    }
    pub fn move_past(&self, c: usize, keys: &[u64], mx: usize, x: &mut [u64], my: usize, y: &[u64]) -> Pair {
        let (k, l) = (keys.as_ptr(), x.as_mut_ptr());
        pair(unsafe { (self.move_past)(c, k, keys.len(), mx, l, x.len(), my, y.as_ptr(), y.len()) })
    }
}
