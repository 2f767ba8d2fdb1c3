//! From a distance to a colour: dark blue is near, yellow far, grey not reached.

/// A polynomial fit of the colour map viridis, by powers.
const VIRIDIS: [[f64; 3]; 7] = [
    [0.27773, 0.00541, 0.33410],
    [0.10509, 1.40461, 1.38459],
    [-0.33086, 0.21485, 0.09510],
    [-4.63423, -5.79910, -19.33244],
    [6.22827, 14.17993, 56.69055],
    [4.77638, -13.74515, -65.35303],
    [-5.43546, 4.64585, 26.31244],
];

/// The colour of a distance among those up to `most`.
pub fn colour(distance: f64, most: f64) -> [f64; 3] {
    let x = distance / most;
    if !distance.is_finite() {
        return [0.8; 3];
    }
    let x = if x.is_nan() { 0. } else { x.clamp(0., 1.) };
    let mut sum = [0.; 3];
    for power in VIRIDIS.iter().rev() {
        sum = [0, 1, 2].map(|k| sum[k] * x + power[k]);
    }
    sum.map(|c| c.clamp(0., 1.))
}

/// A colour as three bytes, darkened by a shade from 0 to 1.
pub fn bytes(colour: [f64; 3], shade: f64) -> [u8; 3] {
    colour.map(|c| (255. * c * shade).round() as u8)
}
