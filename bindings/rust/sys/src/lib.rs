//! The functions of libplanner.a, each under its name in bindings/c/planner.h, which says what it answers and writes. Where
//! C takes a pointer and a length, these take a slice: any slices may be lent. What is returned is the code, as in C.

/// Declares the exported functions, each by its parameters on slices, and makes of each the function that takes them.
macro_rules! exported {
    ($($name:ident($($parameters:tt)*);)*) => {
        $(on_slices! { $name [] [] [] $($parameters)*, })*
    };
}

/// One function. Its parameters are gone through one by one; the three lists are what C takes, what is taken here, and what
/// is handed on.
macro_rules! on_slices {
    ($name:ident [$($c:tt)*] [$($taken:tt)*] [$($on:tt)*] $lent:ident: &[u8], $($rest:tt)*) => {
        on_slices! {
            $name [$($c)* _: *const u8, _: usize,] [$($taken)* $lent: &[u8],] [$($on)* $lent.as_ptr(), $lent.len(),] $($rest)*
        }
    };
    ($name:ident [$($c:tt)*] [$($taken:tt)*] [$($on:tt)*] $lent:ident: &mut [u8], $($rest:tt)*) => {
        on_slices! {
            $name [$($c)* _: *mut u8, _: usize,] [$($taken)* $lent: &mut [u8],] [$($on)* $lent.as_mut_ptr(), $lent.len(),] $($rest)*
        }
    };
    ($name:ident [$($c:tt)*] [$($taken:tt)*] [$($on:tt)*] $number:ident: $type:ty, $($rest:tt)*) => {
        on_slices! { $name [$($c)* _: $type,] [$($taken)* $number: $type,] [$($on)* $number,] $($rest)* }
    };
    ($name:ident [$($c:tt)*] [$($taken:tt)*] [$($on:tt)*] $(,)?) => {
        #[inline]
        pub fn $name($($taken)*) -> u32 {
            extern "C" {
                fn $name($($c)*) -> u32;
            }
            // A slice is never NULL, and one that is written to overlaps no other: planner.h asks for no more.
            unsafe { $name($($on)*) }
        }
    };
}

exported! {
    planner_version();
    planner_question(sheet: &[u8]);
    planner_run(sheet: &[u8], node_limit: u32, list: &mut [u8], answer: &mut [u8]);
    planner_report(input: &[u8], out: &mut [u8], answer: &mut [u8]);
    planner_filter(sets: &mut [u8], index: &[u8], equal: &[u8], not_equal: &[u8]);
    planner_question_lent(sheet: &[u8], pairs: &[u8], block: &[u8]);
    planner_run_lent(sheet: &[u8], pairs: &[u8], block: &[u8], node_limit: u32, list: &mut [u8], answer: &mut [u8]);
    planner_at_least(sheet: &[u8], pairs: &[u8], block: &[u8], plans: u32, node_limit: u32, answer: &mut [u8]);
    planner_families(sheet: &[u8], pairs: &[u8], block: &[u8], node_limit: u32, answer: &mut [u8]);
    planner_closed(sheet: &[u8], pairs: &[u8], block: &[u8], answer: &mut [u8]);
    planner_columns(places: u32, rows: &[u8], out: &mut [u8], answer: &mut [u8]);
    planner_rows(store: &[u8], out: &mut [u8], answer: &mut [u8]);
    planner_merge(places: u32, pairs: &[u8], first: &[u8], second: &[u8], out: &mut [u8], answer: &mut [u8]);
    planner_store_put(store: &mut [u8], course: u32, hall: u8, table: &[u8], answer: &mut [u8]);
    planner_store_fetch(store: &[u8], course: u32, hall: u8, out: &mut [u8], answer: &mut [u8]);
    planner_store_drop(store: &mut [u8], course: u32, hall: u8, answer: &mut [u8]);
    planner_desk_sit(desk: &mut [u8], sheet: &[u8], node_limit: u32, answer: &mut [u8]);
    planner_desk_turn(desk: &mut [u8], answer: &mut [u8]);
    planner_desk_rounds(desk: &mut [u8], rounds: u32, answer: &mut [u8]);
    planner_desk_look(desk: &[u8], seat: u32, answer: &mut [u8]);
    planner_desk_leave(desk: &mut [u8], seat: u32, out: &mut [u8], answer: &mut [u8]);
    planner_small_sheet(k: u32, out: &mut [u8], answer: &mut [u8]);
    planner_run_part(
        sheet: &[u8],
        pairs: &[u8],
        block: &[u8],
        from: &[u8],
        upto: &[u8],
        node_limit: u32,
        list: &mut [u8],
        answer: &mut [u8]
    );
    planner_join(heads: &[u8], answer: &mut [u8]);
}
