//! The functions of libmom_c.a for the area that observers can reach.

// SAFETY: as in raw.rs.
unsafe extern "C" {
    fn mom_coverage(
        depth: u8,
        zuniqs: *const u64,
        zl: usize,
        starts: *mut u64,
        sl: usize,
        ends: *mut u64,
        el: usize,
    ) -> u64;
    fn mom_clip(
        depth: u8,
        map_zuniqs: *const u64,
        mzl: usize,
        map_densities: *const f64,
        mdl: usize,
        starts: *const u64,
        sl: usize,
        ends: *const u64,
        el: usize,
        zuniqs: *mut u64,
        zl: usize,
        densities: *mut f64,
        dl: usize,
    ) -> u64;
}

// A slice passes as its pointer and its length. In the calls below each pointer and the length
// after it are those of one slice, and the slices that are written overlap no other.

pub fn coverage(depth: u8, zuniqs: &[u64], starts: &mut [u64], ends: &mut [u64]) -> u64 {
    // SAFETY: as said above.
    unsafe {
        mom_coverage(
            depth,
            zuniqs.as_ptr(),
            zuniqs.len(),
            starts.as_mut_ptr(),
            starts.len(),
            ends.as_mut_ptr(),
            ends.len(),
        )
    }
}

pub fn clip(
    depth: u8,
    map_zuniqs: &[u64],
    map_densities: &[f64],
    starts: &[u64],
    ends: &[u64],
    zuniqs: &mut [u64],
    densities: &mut [f64],
) -> u64 {
    // SAFETY: as said above.
    unsafe {
        mom_clip(
            depth,
            map_zuniqs.as_ptr(),
            map_zuniqs.len(),
            map_densities.as_ptr(),
            map_densities.len(),
            starts.as_ptr(),
            starts.len(),
            ends.as_ptr(),
            ends.len(),
            zuniqs.as_mut_ptr(),
            zuniqs.len(),
            densities.as_mut_ptr(),
            densities.len(),
        )
    }
}
