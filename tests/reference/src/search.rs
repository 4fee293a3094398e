//! A search over all legal trees of one net, straight from the paragraph "Legal": actual buffers,
//! each hanging on a node one level below, driver and buffers feeding at most as many slots as their
//! capacities. For nets of few sinks.

/// A node that may feed others: the driver, at distance 0, or a buffer.
struct Node {
    distance: usize,
    feeds: usize,
    may_feed: usize,
}

struct Search<'a> {
    sinks: &'a [usize],
    s: usize,
    nodes: Vec<Node>,
}

impl Search<'_> {
    /// Tries each node of a distance that may feed one more slot.
    fn on_each(&mut self, distance: usize, then: &mut dyn FnMut(&mut Self) -> bool) -> bool {
        for parent in 0..self.nodes.len() {
            let node = &mut self.nodes[parent];
            if node.distance == distance && node.feeds < node.may_feed {
                node.feeds += 1;
                if then(self) {
                    return true;
                }
                self.nodes[parent].feeds -= 1;
            }
        }
        false
    }

    /// Whether the sinks from number `placed` on can all hang on the nodes there are.
    fn place_sinks(&mut self, placed: usize) -> bool {
        match self.sinks.get(placed) {
            None => true,
            Some(&distance) => {
                self.on_each(distance - 1, &mut |search| search.place_sinks(placed + 1))
            }
        }
    }

    /// Whether some tree has this many more buffers, none nearer than the last one placed.
    fn place_buffers(&mut self, left: usize) -> bool {
        if left == 0 {
            return self.place_sinks(0);
        }
        let nearest = self.nodes.last().map_or(1, |node| node.distance.max(1));
        let farthest = self.sinks.iter().copied().max().unwrap_or(0);
        (nearest..farthest).any(|distance| {
            let s = self.s;
            self.on_each(distance - 1, &mut |search| {
                search.nodes.push(Node { distance, feeds: 0, may_feed: s });
                let found = search.place_buffers(left - 1);
                search.nodes.pop();
                found
            })
        })
    }
}

/// The fewest buffers of any legal tree on a driver of that capacity, or nothing if there is none.
/// A tree in which every buffer leads to a sink has at most one buffer for each level that each
/// sink stands above 1, and leaving out the other buffers of a legal tree leaves it legal; so no
/// tree of that size or below is none at all.
pub fn fewest_of_all_trees(sinks: &[usize], s: usize, driver: usize) -> Option<usize> {
    let most: usize = sinks.iter().map(|distance| distance - 1).sum();
    (0..=most).find(|&buffers| {
        let driver = Node { distance: 0, feeds: 0, may_feed: driver };
        Search { sinks, s, nodes: vec![driver] }.place_buffers(buffers)
    })
}
