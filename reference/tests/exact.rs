//! The big whole numbers of `exact`, against 128-bit arithmetic.

use reference::exact::Big;
use reference::rng::Rng;

fn random(rng: &mut Rng) -> i128 {
    let bits = rng.range(0, 62);
    let value = (rng.next() >> (63 - bits)) as i128;
    if rng.percent(50) {
        value
    } else {
        -value
    }
}

#[test]
fn small_numbers_agree() {
    let mut rng = Rng::new(5);
    for _ in 0..20_000 {
        let (a, b, c) = (random(&mut rng), random(&mut rng), random(&mut rng));
        let sum = Big::from(a).multiply(&Big::from(b)).add(&Big::from(c));
        assert_eq!(sum, Big::from(a * b + c));
        assert_eq!(Big::from(a).compare(&Big::from(b)), a.cmp(&b));
        assert_eq!(Big::from(a * b).compare(&Big::from(c)), (a * b).cmp(&c));
    }
}

#[test]
fn large_numbers_keep_the_laws() {
    let mut rng = Rng::new(6);
    let mut power = Big::one();
    for _ in 0..60 {
        let (a, b) = (Big::from(random(&mut rng)), Big::from(random(&mut rng)));
        power = power.multiply(&Big::from(random(&mut rng) | 1)).add(&a);
        let left = power.multiply(&a.add(&b));
        let right = power.multiply(&a).add(&power.multiply(&b));
        assert_eq!(left, right);
        let minus = power.multiply(&Big::from(-1));
        assert_eq!(power.add(&minus), Big::zero());
        assert_eq!(power.add(&a).add(&minus), a);
    }
}
