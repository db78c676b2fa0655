//! Stand-in for itertools: four lists walked side by side, up to the end of the shortest.

pub fn multizip<A, B, C, D>(lists: (A, B, C, D)) -> impl Iterator<Item = (A::Item, B::Item, C::Item, D::Item)>
where
    A: IntoIterator,
    B: IntoIterator,
    C: IntoIterator,
    D: IntoIterator,
{
    let (a, b, c, d) = lists;
    a.into_iter().zip(b).zip(c).zip(d).map(|(((a, b), c), d)| (a, b, c, d))
}
