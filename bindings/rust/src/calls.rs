// The calls as include/wontabeli.h has them. A slice is a pointer and its length.
extern "C" {
    pub fn wontabeli_check(profile: *const u8, profile_len: usize, out: *mut u32, out_len: usize) -> u8;
    pub fn wontabeli_decode(image: *const u8, image_len: usize, hse: u32, out: *mut u32, out_len: usize) -> u8;
    pub fn wontabeli_adc(image: *const u8, image_len: usize, sysclk: u32, out: *mut u32, out_len: usize) -> u8;
    pub fn wontabeli_rng(image: *const u8, image_len: usize, sysclk: u32, out: *mut u32, out_len: usize) -> u8;

    pub fn wontabeli_tray(profiles: *const u8, profiles_len: usize, out: *mut u8, out_len: usize) -> u8;

    pub fn wontabeli_read_profile(profile: *const u8, profile_len: usize, out: *mut u8, out_len: usize) -> u8;
    pub fn wontabeli_write_profile(fields: *const u8, fields_len: usize, out: *mut u8, out_len: usize) -> u8;
    pub fn wontabeli_read_image(image: *const u8, image_len: usize, out: *mut u8, out_len: usize) -> u8;
    pub fn wontabeli_write_image(fields: *const u8, fields_len: usize, out: *mut u8, out_len: usize) -> u8;

    pub fn wontabeli_start(profile: *const u8, profile_len: usize, image: *const u8, image_len: usize, place: *mut u8, place_len: usize) -> u8;
    pub fn wontabeli_step(place: *mut u8, place_len: usize, reading: u16, tick: u32) -> u8;
    pub fn wontabeli_flash_key(position: u8, out: *mut u32, out_len: usize) -> u8;
    pub fn wontabeli_waits_owed(profile: *const u8, profile_len: usize, out: *mut u32) -> u8;
    pub fn wontabeli_call_bound(profile: *const u8, profile_len: usize, out: *mut u32) -> u8;

    pub fn wontabeli_v1_check(part: u8, config: *const u8, config_len: usize, out: *mut u32, out_len: usize) -> u8;
    pub fn wontabeli_v1_decode(part: u8, fields: *const u8, fields_len: usize, hse: u32, out: *mut u32, out_len: usize) -> u8;
    pub fn wontabeli_v1_init_fields(
        part: u8,
        config: *const u8,
        config_len: usize,
        earlier: *const u8,
        earlier_len: usize,
        out: *mut u8,
        out_len: usize,
    ) -> u8;

    pub fn wontabeli_v30x_check(config: *const u8, config_len: usize, out: *mut u32, out_len: usize) -> u8;
    pub fn wontabeli_v30x_decode(fields: *const u8, fields_len: usize, hse: u32, out: *mut u32, out_len: usize) -> u8;
    pub fn wontabeli_v30x_init_fields(
        config: *const u8,
        config_len: usize,
        earlier: *const u8,
        earlier_len: usize,
        out: *mut u8,
        out_len: usize,
    ) -> u8;

    pub fn wontabeli_h4_clocks(sysclk: u32, hpre: u8, fpre: u8, ppre1: u8, ppre2: u8, out: *mut u32, out_len: usize) -> u8;
    pub fn wontabeli_h4_ahb(sysclk: u32, hpre: u8, out: *mut u32) -> u8;
    pub fn wontabeli_h4_hclk(ahb: u32, fpre: u8, out: *mut u32) -> u8;
    pub fn wontabeli_h4_pclk(hclk: u32, ppre: u8, out: *mut u32, out_len: usize) -> u8;
    pub fn wontabeli_h4_multiplier(position: u8, out: *mut u32) -> u8;

    pub fn wontabeli_serial_divisor(pclk: u32, rate: u32, brr: *mut u16, error: *mut i32) -> u8;
}
