//! The proved entries as their C interface has them: lent words, and answers with a number and a
//! place that a caller has to look at. This is the only module with unsafe code.

pub use crate::words::{
    Job, JobsAnswer, ReadAnswer, RunAnswer, SheetAnswer, Verdict, WalkAnswer, WriteAnswer,
    CHECK_PLAN_WORDS, CONVERSION_WORDS, JOBS_WORDS, READ_WORDS, REPLAY_WORDS, SHEET_WORDS,
    TABLE_ROOM, TABLE_WORDS, TEXT_WORDS, WALK_WORDS, WRITE_WORDS,
};

/// The two calls of an entry of the library: one lends it words for its answer, the other gives the
/// answer. `reads` names the slices that the entry reads, `takes` a number, `writes` the slice that
/// it writes; in C each slice is a pointer and a length, and the words come last. The call that
/// lends words takes slices of any length, even where `reads` has a fixed one.
macro_rules! entry {
    (
        $entry:ident
        reads($($shared:ident: $given:ty),+)
        $(takes($number:ident: u64))?
        $(writes($lent:ident: [$item:ty]))?;

        $(#[$about_words:meta])*
        pub fn $words:ident;

        $(#[$about:meta])*
        pub fn $call:ident -> $answer:ident of $size:ident;
    ) => {
        $(#[$about_words])*
        pub fn $words(
            $($shared: &[u8],)+
            $($number: u64,)?
            $($lent: &mut [$item],)?
            answer: &mut [u64],
        ) -> bool {
            extern "C" {
                fn $entry(
                    $($shared: *const u8, _: usize,)+
                    $($number: u64,)?
                    $($lent: *mut $item, _: usize,)?
                    answer: *mut u64, _: usize,
                ) -> bool;
            }
            // SAFETY: each pointer and length are those of one slice, never null. The entry writes
            // only the exclusive slices, which overlap no other, and keeps no pointer; the shared
            // ones may overlap, since it only reads them. Any bytes make a byte, a word or a job's
            // record, which has C's layout.
            unsafe {
                $entry(
                    $($shared.as_ptr(), $shared.len(),)+
                    $($number,)?
                    $($lent.as_mut_ptr(), $lent.len(),)?
                    answer.as_mut_ptr(), answer.len(),
                )
            }
        }

        $(#[$about])*
        pub fn $call(
            $($shared: &$given,)+
            $($number: u64,)?
            $($lent: &mut [$item],)?
        ) -> $answer {
            let mut words = [0; $size];
            let room = $words($($shared,)+ $($number,)? $($lent,)? &mut words);
            assert!(room, "the entry has room for its words");
            $answer::from(words)
        }
    };
}

entry! {
    adqurim_read reads(file: [u8]);

    /// Reads a task file into lent words. False, and no word changed, if there is no room for 11.
    pub fn read_words;

    /// Reads a task file.
    pub fn read -> ReadAnswer of READ_WORDS;
}

entry! {
    adqurim_replay reads(file: [u8], order: [u8]);

    /// Replays an order into lent words. False, and no word changed, if there is no room for 43.
    pub fn replay_words;

    /// Replays an order.
    pub fn replay -> RunAnswer of REPLAY_WORDS;
}

entry! {
    adqurim_walk reads(file: [u8]) takes(allowance: u64) writes(order: [u8]);

    /// Walks all orders into lent words and a lent order buffer. False, and neither changed, if there
    /// is no room for 45 words.
    pub fn walk_words;

    /// Walks all orders. The buffer takes the failing order; it is zeroed up to 512 if the walk holds
    /// or is undecided.
    pub fn walk -> WalkAnswer of WALK_WORDS;
}

entry! {
    adqurim_check_plan reads(file: [u8], plan: [u8]);

    /// Checks a round plan into lent words. False, and no word changed, if there is no room for 43.
    pub fn check_plan_words;

    /// Checks a round plan.
    pub fn check_plan -> RunAnswer of CHECK_PLAN_WORDS;
}

entry! {
    adqurim_order_to_plan reads(file: [u8], order: [u8]) writes(plan: [u8]);

    /// Converts an order into lent words and a lent plan buffer. False, and neither changed, if there
    /// is no room for 43 words.
    pub fn order_to_plan_words;

    /// Converts an order. The buffer takes its plan, with zeros up to 1,281; a refusal leaves it.
    pub fn order_to_plan -> RunAnswer of CONVERSION_WORDS;
}

entry! {
    adqurim_plan_to_order reads(file: [u8], plan: [u8]) writes(order: [u8]);

    /// Converts a round plan into lent words and a lent order buffer. False, and neither changed, if
    /// there is no room for 43 words.
    pub fn plan_to_order_words;

    /// Converts a round plan. The buffer takes its order, with zeros up to 512; a refusal leaves it.
    pub fn plan_to_order -> RunAnswer of CONVERSION_WORDS;
}

entry! {
    adqurim_sheet reads(file: [u8]) writes(text: [u8]);

    /// Writes a file's sheet into a lent text, and lent words. False, and neither changed, if there is
    /// no room for 3 words.
    pub fn sheet_words;

    /// Writes a file's sheet. It stands at the text's front; a text below 4,608 bytes stays as it is.
    pub fn sheet -> SheetAnswer of SHEET_WORDS;
}

entry! {
    adqurim_jobs reads(file: [u8]) writes(jobs: [Job]);

    /// Lists a file's jobs into a lent list, and lent words. False, and neither changed, if there is no
    /// room for 3 words.
    pub fn jobs_words;

    /// Lists a file's jobs. Records past the last job stay as they are; a refusal leaves all.
    pub fn jobs -> JobsAnswer of JOBS_WORDS;
}

entry! {
    adqurim_table reads(file: [u8]) writes(table: [u8]);

    /// Fills a lent table in memory from a file, and lent words. False, and neither changed, if there
    /// is no room for 3 words.
    pub fn table_words;

    /// Fills a table in memory, the first 696 bytes that are lent; a refusal leaves them.
    pub fn table -> WriteAnswer of TABLE_WORDS;
}

entry! {
    adqurim_write reads(table: [u8; TABLE_ROOM]) writes(file: [u8]);

    /// Writes the file of a table in memory into a lent buffer, and lent words. False, and neither
    /// changed, if there is no room for 3 words or the table has fewer than 696 bytes.
    pub fn write_words;

    /// Writes the file of a table in memory. It stands at the buffer's front; a refusal leaves all.
    pub fn write -> WriteAnswer of WRITE_WORDS;
}

entry! {
    adqurim_text_to_file reads(text: [u8]) writes(file: [u8]);

    /// Converts a text to its file in a lent buffer, and lent words. False, and neither changed, if
    /// there is no room for 3 words.
    pub fn text_to_file_words;

    /// Converts a text to its file. It stands at the buffer's front; a refusal leaves all.
    pub fn text_to_file -> WriteAnswer of TEXT_WORDS;
}

entry! {
    adqurim_file_to_text reads(file: [u8]) writes(text: [u8]);

    /// Converts a file to its text in a lent buffer, and lent words. False, and neither changed, if
    /// there is no room for 3 words.
    pub fn file_to_text_words;

    /// Converts a file to its text. It stands at the buffer's front; a refusal leaves all.
    pub fn file_to_text -> WriteAnswer of TEXT_WORDS;
}
