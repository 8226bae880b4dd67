//! How far a rebuilt sample can be off (document 02, request 07), at single
//! inputs; `differential` looks at many blocks of every QP.

use reference::{code_block, promised_distance};

#[test]
fn promises() {
    // At QP 47 nothing is rounded off: (288+552+261)*128 is 367*384.
    for (qp, promise) in [(0, 2), (28, 41), (33, 72), (47, 368), (51, 576)] {
        assert_eq!(promised_distance(qp), Ok(promise));
    }
}

/// A block that comes back as far off as is promised: all its coefficients lie
/// nearly two thirds of a step behind a level.
#[test]
fn promise_met_at_qp_33() {
    let samples = [
        158, 147, 36, 98, 133, 143, 125, 123, 114, 131, 113, 142, 101, 126, 129, 155,
    ];
    let (mut levels, mut rebuilt) = ([0; 16], [0; 16]);
    assert!(code_block(33, 0, &[0; 13], &samples, &mut levels, &mut rebuilt).is_ok());
    assert_eq!([samples[2], rebuilt[2]], [36, 108]);
}
