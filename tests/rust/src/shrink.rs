//! The shortest failing list: parts of it are left out, halves first and single ones last, for as
//! long as it still fails; then each that is left is made as simple as it can be.

pub fn shortest<T: Clone>(list: &[T], fails: &mut dyn FnMut(&[T]) -> bool, smaller: &dyn Fn(&T) -> Vec<T>) -> Vec<T> {
    let mut now = list.to_vec();
    loop {
        let before = now.len();
        let mut part = now.len().div_ceil(2).max(1);
        loop {
            let mut at = 0;
            while at < now.len() {
                let end = (at + part).min(now.len());
                let tried: Vec<T> = now[..at].iter().chain(&now[end..]).cloned().collect();
                if fails(&tried) {
                    now = tried;
                } else {
                    at = end;
                }
            }
            if part == 1 {
                break;
            }
            part = part.div_ceil(2);
        }
        let mut changed = now.len() < before;
        for i in 0..now.len() {
            while let Some(simpler) = smaller(&now[i]).into_iter().find(|x| {
                let mut tried = now.clone();
                tried[i] = x.clone();
                fails(&tried)
            }) {
                now[i] = simpler;
                changed = true;
            }
        }
        if !changed {
            return now;
        }
    }
}
