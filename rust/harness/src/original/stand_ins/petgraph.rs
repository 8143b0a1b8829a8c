//! Directed graphs, and their strongly connected components by Tarjan's algorithm.

pub mod graph {
    use std::marker::PhantomData;
    use std::ops::Index;

    #[derive(Debug, Clone, Copy, PartialEq, Eq)]
    pub struct NodeIndex(pub usize);

    /// A graph whose edges carry nothing.
    pub struct DiGraph<N, E> {
        nodes: Vec<N>,
        pub(super) targets: Vec<Vec<usize>>,
        edges: PhantomData<E>,
    }

    impl<N, E> DiGraph<N, E> {
        pub fn with_capacity(nodes: usize, _edges: usize) -> Self {
            DiGraph {
                nodes: Vec::with_capacity(nodes),
                targets: Vec::with_capacity(nodes),
                edges: PhantomData,
            }
        }

        pub fn add_node(&mut self, node: N) -> NodeIndex {
            self.nodes.push(node);
            self.targets.push(Vec::new());
            NodeIndex(self.nodes.len() - 1)
        }

        pub fn add_edge(&mut self, from: NodeIndex, to: NodeIndex, _weight: E) {
            self.targets[from.0].push(to.0);
        }
    }

    impl<N, E> Index<NodeIndex> for DiGraph<N, E> {
        type Output = N;
        fn index(&self, index: NodeIndex) -> &N {
            &self.nodes[index.0]
        }
    }
}

pub mod algo {
    use super::graph::{DiGraph, NodeIndex};

    /// The components, each behind those that it reaches.
    pub fn tarjan_scc<N, E>(graph: &DiGraph<N, E>) -> Vec<Vec<NodeIndex>> {
        let count = graph.targets.len();
        let mut search = Search {
            targets: &graph.targets,
            order: vec![None; count],
            low: vec![0; count],
            on_stack: vec![false; count],
            stack: Vec::new(),
            visited: 0,
            found: Vec::new(),
        };
        for node in 0..count {
            if search.order[node].is_none() {
                search.visit(node);
            }
        }
        search.found
    }

    struct Search<'a> {
        targets: &'a [Vec<usize>],
        order: Vec<Option<usize>>,
        low: Vec<usize>,
        on_stack: Vec<bool>,
        stack: Vec<usize>,
        visited: usize,
        found: Vec<Vec<NodeIndex>>,
    }

    impl Search<'_> {
        fn visit(&mut self, node: usize) {
            let order = self.visited;
            self.visited += 1;
            self.order[node] = Some(order);
            self.low[node] = order;
            self.stack.push(node);
            self.on_stack[node] = true;
            for &target in &self.targets[node] {
                self.follow(node, target);
            }
            if self.low[node] == order {
                self.close(node);
            }
        }

        fn follow(&mut self, node: usize, target: usize) {
            match self.order[target] {
                None => {
                    self.visit(target);
                    self.low[node] = self.low[node].min(self.low[target]);
                }
                Some(order) if self.on_stack[target] => {
                    self.low[node] = self.low[node].min(order);
                }
                Some(_) => {}
            }
        }

        /// Everything above the node on the stack is its component.
        fn close(&mut self, node: usize) {
            let start = self.stack.iter().rposition(|&other| other == node);
            let component = self.stack.split_off(start.expect("it was pushed"));
            for &member in &component {
                self.on_stack[member] = false;
            }
            self.found
                .push(component.into_iter().map(NodeIndex).collect());
        }
    }

    #[cfg(test)]
    mod tests {
        use super::*;

        #[test]
        fn components_stand_behind_those_they_reach() {
            let mut graph = DiGraph::with_capacity(4, 5);
            let [a, b, c, d] = [(); 4].map(|()| graph.add_node(()));
            for (from, to) in [(a, b), (b, c), (c, b), (a, a), (d, a)] {
                graph.add_edge(from, to, ());
            }
            assert_eq!(tarjan_scc(&graph), [vec![b, c], vec![a], vec![d]]);
        }
    }
}
