//! The functions of the archive, as `include/wickdamson.h` declares them.

extern "C" {
    pub fn wick_version() -> u32;
    pub fn wick_book_bytes() -> usize;
    pub fn wick_sound(book: *const u8, book_len: usize) -> u8;

    pub fn wick_create(book: *mut u8, book_len: usize, codes: *const u8, codes_len: usize) -> u8;
    pub fn wick_enter(
        book: *mut u8,
        book_len: usize,
        number: u32,
        buyer: u32,
        seller: u32,
        security: u32,
        quantity: u32,
        price: u32,
    ) -> u8;
    pub fn wick_amend(
        book: *mut u8,
        book_len: usize,
        number: u32,
        buyer: u32,
        seller: u32,
        security: u32,
        quantity: u32,
        price: u32,
    ) -> u8;
    pub fn wick_exclude(book: *mut u8, book_len: usize, number: u32) -> u8;
    pub fn wick_deposit(book: *mut u8, book_len: usize, account: u32, security: u32, quantity: u64) -> u8;
    pub fn wick_withdraw(book: *mut u8, book_len: usize, account: u32, security: u32, quantity: u64) -> u8;
    pub fn wick_roll(book: *mut u8, book_len: usize) -> u8;
    pub fn wick_run(book: *mut u8, book_len: usize, security: u32, moved: *mut u64) -> u8;

    pub fn wick_price(
        intraday: *const u8,
        intraday_len: usize,
        closing: *const u8,
        closing_len: usize,
        security: u32,
        price: *mut u32,
    ) -> u8;
    pub fn wick_marks(
        book: *const u8,
        book_len: usize,
        account: u32,
        intraday: *const u8,
        intraday_len: usize,
        closing: *const u8,
        closing_len: usize,
        rates: *const u32,
        rates_len: usize,
        haircuts: *const u32,
        haircuts_len: usize,
        due: *mut i64,
        sum0: *mut i64,
        sum1: *mut i64,
        sum2: *mut i64,
        sum3: *mut i64,
    ) -> u8;

    pub fn wick_record(
        book: *mut u8,
        book_len: usize,
        file: *const u8,
        file_len: usize,
        place: u32,
        figure: *mut u64,
        next: *mut u32,
    ) -> u8;
    pub fn wick_play(
        book: *mut u8,
        book_len: usize,
        file: *const u8,
        file_len: usize,
        answers: *mut u8,
        answers_len: usize,
        size: *mut usize,
    ) -> u8;
    pub fn wick_sheet(
        book: *mut u8,
        book_len: usize,
        file: *const u8,
        file_len: usize,
        buffer: *mut u8,
        buffer_len: usize,
        size: *mut usize,
    ) -> u8;

    pub fn wick_line_refusal(
        buffer: *mut u8,
        buffer_len: usize,
        index: u32,
        refusal: u32,
        lines: *mut u32,
        bytes: *mut u32,
        size: *mut usize,
    ) -> u8;
    pub fn wick_line_place(
        buffer: *mut u8,
        buffer_len: usize,
        place: u32,
        lines: *mut u32,
        bytes: *mut u32,
        size: *mut usize,
    ) -> u8;
    pub fn wick_line_day(
        buffer: *mut u8,
        buffer_len: usize,
        day: u32,
        lines: *mut u32,
        bytes: *mut u32,
        size: *mut usize,
    ) -> u8;
    pub fn wick_line_open(
        buffer: *mut u8,
        buffer_len: usize,
        number: u32,
        account: u32,
        security: u32,
        quantity: i64,
        money: i64,
        lines: *mut u32,
        bytes: *mut u32,
        size: *mut usize,
    ) -> u8;
    pub fn wick_line_charge(
        buffer: *mut u8,
        buffer_len: usize,
        account: u32,
        currency: u32,
        charge: i64,
        lines: *mut u32,
        bytes: *mut u32,
        size: *mut usize,
    ) -> u8;
    pub fn wick_line_end(
        buffer: *mut u8,
        buffer_len: usize,
        lines_above: u32,
        lines: *mut u32,
        bytes: *mut u32,
        size: *mut usize,
    ) -> u8;
}
