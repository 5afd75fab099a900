//! What becomes of each contour when shapes are cleaned: the first of a shape that collapses takes those behind it along.

/// The contour is kept.
pub const KEPT: u8 = 0;

/// It collapsed.
pub const COLLAPSED: u8 = 1;

/// It stood behind an outline that collapsed, and went with it.
pub const BEHIND: u8 = 2;

/// The fates of all contours, shape after shape, by whether a contour collapses.
pub fn fates<C>(shapes: &[Vec<C>], collapses: impl Fn(&C) -> bool) -> Vec<u8> {
    let mut fates = vec![];
    for shape in shapes {
        let mut fallen = false;
        for (place, contour) in shape.iter().enumerate() {
            if fallen {
                fates.push(BEHIND);
            } else if collapses(contour) {
                fallen = place == 0;
                fates.push(COLLAPSED);
            } else {
                fates.push(KEPT);
            }
        }
    }
    fates
}

#[cfg(test)]
mod tests {
    use super::fates;

    #[test]
    fn only_an_outline_takes_others_along() {
        let told = |shapes: &[&[i32]]| {
            let shapes: Vec<Vec<i32>> = shapes.iter().map(|shape| shape.to_vec()).collect();
            fates(&shapes, |&contour| contour == 0)
        };
        assert_eq!(told(&[]), []);
        assert_eq!(told(&[&[]]), []);
        assert_eq!(told(&[&[1, 0, 1]]), [0, 1, 0]);
        assert_eq!(told(&[&[0, 1, 0], &[], &[1]]), [1, 2, 2, 0]);
    }
}
