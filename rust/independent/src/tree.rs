//! The tree of pages that the rules give for a set of keys.

/// A page: the gap before its first entry, and its entries, each with the gap after it.
#[derive(Clone, Debug, PartialEq, Eq)]
pub struct Page<Item> {
    /// The gap before the first entry.
    pub left: Gap<Item>,
    /// The entries in order, each with the gap after it.
    pub entries: Vec<(Item, Gap<Item>)>,
}

/// A gap: empty, or linked to a page.
pub type Gap<Item> = Option<Box<Page<Item>>>;

impl<Item> Page<Item> {
    /// Counts the page and all pages below it.
    pub fn pages(&self) -> usize {
        let gaps = self.entries.iter().map(|(_, gap)| gap);
        let below = gaps.chain([&self.left]).flatten();
        1 + below.map(|page| page.pages()).sum::<usize>()
    }
}

/// Builds the tree of a row of items in key order, each with its key's layer. The root stands at
/// the highest layer.
pub fn build<Item: Copy>(row: &[(u8, Item)]) -> Page<Item> {
    page_at(top_layer(row), row)
}

/// Gives the highest layer of any item, and 0 where there is none.
pub(crate) fn top_layer<Item>(row: &[(u8, Item)]) -> u8 {
    row.iter().map(|(layer, _)| *layer).max().unwrap_or(0)
}

/// Builds the page at this layer for a row without higher layers: the items of the layer are its
/// entries, and the rows between them are its gaps.
fn page_at<Item: Copy>(layer: u8, row: &[(u8, Item)]) -> Page<Item> {
    let stands_here = |(of_item, _): &(u8, Item)| *of_item == layer;
    let mut gaps = row.split(stands_here).map(|gap| gap_at(layer, gap));
    Page {
        left: gaps.next().flatten(),
        entries: row
            .iter()
            .filter(|item| stands_here(item))
            .map(|(_, item)| *item)
            .zip(gaps)
            .collect(),
    }
}

/// Builds a gap of a page at this layer: a gap with items links to a page one layer lower.
fn gap_at<Item: Copy>(layer: u8, row: &[(u8, Item)]) -> Gap<Item> {
    if row.is_empty() {
        return None;
    }
    Some(Box::new(page_at(layer - 1, row)))
}

#[cfg(test)]
mod tests {
    use super::{build, Gap, Page};

    fn page(left: Gap<char>, entries: Vec<(char, Gap<char>)>) -> Page<char> {
        Page { left, entries }
    }

    fn gap(left: Gap<char>, entries: Vec<(char, Gap<char>)>) -> Gap<char> {
        Some(Box::new(page(left, entries)))
    }

    #[test]
    fn no_items() {
        assert_eq!(build::<char>(&[]), page(None, vec![]));
        assert_eq!(build::<char>(&[]).pages(), 1);
    }

    #[test]
    fn one_item_of_any_layer() {
        // 129 layers.
        for layer in 0..=128 {
            assert_eq!(build(&[(layer, 'a')]), page(None, vec![('a', None)]));
        }
    }

    #[test]
    fn layers_0_1_0() {
        let tree = build(&[(0, 'a'), (1, 'b'), (0, 'c')]);
        let expected = page(
            gap(None, vec![('a', None)]),
            vec![('b', gap(None, vec![('c', None)]))],
        );
        assert_eq!(tree, expected);
        assert_eq!(tree.pages(), 3);
    }

    #[test]
    fn layers_0_2() {
        let tree = build(&[(0, 'a'), (2, 'b')]);
        let middle = gap(gap(None, vec![('a', None)]), vec![]);
        assert_eq!(tree, page(middle, vec![('b', None)]));
        assert_eq!(tree.pages(), 3);
    }

    #[test]
    fn layers_1_1() {
        let tree = build(&[(1, 'a'), (1, 'b')]);
        assert_eq!(tree, page(None, vec![('a', None), ('b', None)]));
        assert_eq!(tree.pages(), 1);
    }

    #[test]
    fn layers_128_0() {
        let tree = build(&[(128, 'a'), (0, 'b')]);
        assert_eq!(tree.pages(), 129);
    }

    /// The page counts of request (xiii): two rows of two layers give 1 page and two give 2.
    #[test]
    fn rows_of_two_layers() {
        let mut counts = [0; 3];
        for first in 0..=1 {
            for second in 0..=1 {
                counts[build(&[(first, 'a'), (second, 'b')]).pages()] += 1;
            }
        }
        assert_eq!(counts, [0, 2, 2]);
    }
}
