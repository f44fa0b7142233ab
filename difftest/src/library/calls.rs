//! The functions of include/controller.h, for each scale.

use super::answers::{Answered, CPlan, CRefusal, CStage};
use super::ratings::TicksAndLink;
use super::tables::CChoice;

/// The calls of one scale, whose ratings are of the type R.
pub struct Calls<R: 'static> {
    pub name: &'static str,
    /// The length of a planner, in words of 64 bits.
    pub words: usize,
    pub new: unsafe extern "C" fn(*mut u64, u32) -> CRefusal,
    pub add: unsafe extern "C" fn(*mut u64, u32, u32, u32, u32) -> Answered<usize>,
    pub join: unsafe extern "C" fn(*mut u64, usize, usize) -> CRefusal,
    pub retime: unsafe extern "C" fn(*mut u64, usize, u32, u32, u32, u32) -> CRefusal,
    pub count: unsafe extern "C" fn(*mut u64, u8, u8) -> CRefusal,
    pub load: unsafe extern "C" fn(*mut u64, *const u8, usize) -> CRefusal,
    pub clear: unsafe extern "C" fn(*mut u64),
    pub plan: unsafe extern "C" fn(
        *mut u64,
        *mut u64,
        usize,
        *mut R,
        usize,
        *mut CChoice,
        usize,
    ) -> Answered<CPlan<R>>,
    pub stage: unsafe extern "C" fn(*mut u64, usize) -> Answered<CStage>,
    pub place: unsafe extern "C" fn(*mut u64, usize) -> Answered<usize>,
    pub rating: unsafe extern "C" fn(*mut u64) -> Answered<R>,
    pub margin: unsafe extern "C" fn(*mut u64, u32) -> Answered<i64>,
    pub page: unsafe extern "C" fn(*mut u64, *mut u8, usize) -> Answered<usize>,
    pub write: unsafe extern "C" fn(*mut u64, *mut u8, usize) -> Answered<usize>,
}

macro_rules! scale {
    ($calls:ident, $name:literal, $words:literal, $rating:ty) => {
        pub static $calls: Calls<$rating> = {
            unsafe extern "C" {
                #[link_name = concat!("planner_", $name, "_new")]
                fn new(_: *mut u64, limit: u32) -> CRefusal;
                #[link_name = concat!("planner_", $name, "_add")]
                fn add(_: *mut u64, acc: u32, cpu: u32, size: u32, link: u32) -> Answered<usize>;
                #[link_name = concat!("planner_", $name, "_join")]
                fn join(_: *mut u64, from: usize, to: usize) -> CRefusal;
                #[link_name = concat!("planner_", $name, "_retime")]
                fn retime(
                    _: *mut u64,
                    _: usize,
                    acc: u32,
                    cpu: u32,
                    size: u32,
                    link: u32,
                ) -> CRefusal;
                #[link_name = concat!("planner_", $name, "_count")]
                fn count(_: *mut u64, k: u8, l: u8) -> CRefusal;
                #[link_name = concat!("planner_", $name, "_load")]
                fn load(_: *mut u64, file: *const u8, length: usize) -> CRefusal;
                #[link_name = concat!("planner_", $name, "_clear")]
                fn clear(_: *mut u64);
                #[link_name = concat!("planner_", $name, "_plan")]
                fn plan(
                    _: *mut u64,
                    ideals: *mut u64,
                    ideals_length: usize,
                    ratings: *mut $rating,
                    ratings_length: usize,
                    choices: *mut CChoice,
                    choices_length: usize,
                ) -> Answered<CPlan<$rating>>;
                #[link_name = concat!("planner_", $name, "_stage")]
                fn stage(_: *mut u64, number: usize) -> Answered<CStage>;
                #[link_name = concat!("planner_", $name, "_place")]
                fn place(_: *mut u64, number: usize) -> Answered<usize>;
                #[link_name = concat!("planner_", $name, "_rating")]
                fn rating(_: *mut u64) -> Answered<$rating>;
                #[link_name = concat!("planner_", $name, "_margin")]
                fn margin(_: *mut u64, pick: u32) -> Answered<i64>;
                #[link_name = concat!("planner_", $name, "_page")]
                fn page(_: *mut u64, buffer: *mut u8, length: usize) -> Answered<usize>;
                #[link_name = concat!("planner_", $name, "_write")]
                fn write(_: *mut u64, buffer: *mut u8, length: usize) -> Answered<usize>;
            }
            Calls {
                name: $name,
                words: $words,
                new,
                add,
                join,
                retime,
                count,
                load,
                clear,
                plan,
                stage,
                place,
                rating,
                margin,
                page,
                write,
            }
        };
    };
}

scale!(PEAK, "peak", 230, u32);
scale!(LINE, "line", 230, u64);
scale!(PAIR, "pair", 230, TicksAndLink);
