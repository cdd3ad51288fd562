//! 01's sine, cosine and arctangent: binary64, each operation rounded. They stand in the Rust too.

use std::f64::consts::PI;

const T: f64 = 2.0 * PI;

/// r and q of 01: the angle brought near 0, and its square.
fn reduce(a: f64) -> (f64, f64) {
    let k = (a / T + 0.5).floor();
    let r = a - k * T;
    (r, r * r)
}

pub fn cos(a: f64) -> f64 {
    let (_, q) = reduce(a);
    (1..=11).rev().fold(1.0, |p, n| {
        let n = f64::from(n);
        1.0 - (p * q) / ((2.0 * n - 1.0) * (2.0 * n))
    })
}

pub fn sin(a: f64) -> f64 {
    let (r, q) = reduce(a);
    r * (1..=11).rev().fold(1.0, |p, n| {
        let n = f64::from(n);
        1.0 - (p * q) / ((2.0 * n) * (2.0 * n + 1.0))
    })
}

pub fn atan2(s: f64, c: f64) -> f64 {
    let (x, y) = (s.abs(), c.abs());
    if x == 0.0 && y == 0.0 {
        return 0.0;
    }
    let t = x.min(y) / x.max(y);
    let (u, a0) = if t > 0.4 {
        ((t - 1.0) / (t + 1.0), PI / 4.0)
    } else {
        (t, 0.0)
    };
    let p = (0..=15)
        .rev()
        .fold(0.0, |p, n| 1.0 / (2.0 * f64::from(n) + 1.0) - (u * u) * p);
    let mut a = a0 + u * p;
    if x > y {
        a = PI / 2.0 - a;
    }
    if c < 0.0 {
        a = PI - a;
    }
    if s < 0.0 { -a } else { a }
}
