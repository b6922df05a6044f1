//! Drive times in hundredths of a second, by distance in cm.

/// How long the carriage holds still behind a drive.
const PAUSE: u16 = 25;

const fn travel(distance: u32) -> u16 {
    if distance > 400 {
        return (200 + distance.div_ceil(2)) as u16;
    }
    let mut t = 0;
    while t * t < 400 * distance {
        t += 1;
    }
    t as u16
}

const fn time(distance: u32) -> u16 {
    if distance == 0 {
        return 0;
    }
    travel(distance) + PAUSE
}

const fn times() -> [u16; 1024] {
    let mut all = [0; 1024];
    let mut d = 0;
    while d < 1024 {
        all[d] = time(d as u32);
        d += 1;
    }
    all
}

/// Made when the crate is compiled: a record's distances have 10 bits.
pub static TIMES: [u16; 1024] = times();

#[cfg(test)]
mod tests {
    #[test]
    fn the_papers_figures() {
        for (d, t) in [(0, 0), (1, 45), (2, 54), (100, 225), (399, 425), (400, 425), (401, 426), (402, 426), (1023, 737)] {
            assert_eq!(super::TIMES[d], t);
        }
    }
}
