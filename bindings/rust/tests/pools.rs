use ukmerelt::pool::{Pool, Press};
use ukmerelt::{IntPoint, Refused, LIMIT};

fn contour(points: usize) -> Vec<IntPoint> {
    (0..points as i32).map(|k| IntPoint::new(k, -k)).collect()
}

#[test]
fn each_press_has_its_contours_whatever_the_other_does() {
    let mut pool = Pool::new();
    pool.add(Press::First, &contour(3)).unwrap();
    pool.add(Press::Second, &contour(2)).unwrap();
    pool.add(Press::First, &[]).unwrap();
    pool.add(Press::Second, &contour(5)).unwrap();
    pool.remove(Press::First).unwrap();
    pool.remove(Press::First).unwrap();
    assert_eq!(pool.remove(Press::First), Err(Refused::NoneLeft));
    assert_eq!(pool.contours(Press::Second), 2);
    assert_eq!(pool.contour(Press::Second, 0), Some(&contour(2)[..]));
    assert_eq!(pool.contour(Press::Second, 1), Some(&contour(5)[..]));
    assert_eq!(pool.contour(Press::Second, 2), None);
    assert_eq!((pool.held(Press::Second), pool.free()), (7, 65_529));
}

#[test]
fn a_press_gets_what_the_other_leaves_it() {
    let mut pool = Pool::new();
    assert_eq!(pool.add(Press::First, &contour(49_153)), Err(Refused::Full));
    pool.add(Press::First, &contour(49_152)).unwrap();
    assert_eq!(pool.add(Press::First, &[]), Err(Refused::Full));
    pool.add(Press::Second, &contour(16_384)).unwrap();
    assert_eq!(pool.free(), 0);
    assert_eq!(pool.add(Press::Second, &[]), Err(Refused::Full));
    assert_eq!(
        pool.add(Press::Second, &contour(65_537)),
        Err(Refused::TooMany)
    );
    let off = [IntPoint::new(LIMIT + 1, 0)];
    assert_eq!(pool.add(Press::Second, &off), Err(Refused::OffGrid));
}
