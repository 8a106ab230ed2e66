// The works of `bench_document` in plain Rust, to be timed beside it: elements in a vector by number, children in a vector of each.
use std::collections::HashMap;
use std::rc::Rc;

const ELEMENTS: u32 = 65_536;

fn draw(state: &mut u64, below: u32) -> u32 {
    *state = state.wrapping_mul(6_364_136_223_846_793_005).wrapping_add(1_442_695_040_888_963_407);
    (*state >> 33) as u32 % below
}

#[derive(Default)]
struct Element {
    number: u32,
    parent: Option<u32>,
    tag: String,
    classes: Vec<String>,
    children: Vec<u32>,
}

#[derive(Default)]
struct Tree {
    elements: HashMap<u32, Element>,
}

impl Tree {
    fn put(&mut self, n: u32, parent: Option<u32>, tag: &str) {
        self.elements.insert(n, Element { number: n, parent, tag: tag.to_string(), ..Element::default() });
    }

    fn add(&mut self, n: u32, parent: Option<u32>, tag: &str) {
        if let Some(parent) = parent {
            self.elements.get_mut(&parent).unwrap().children.push(n);
        }
        self.put(n, parent, tag);
    }

    fn insert(&mut self, n: u32, sibling: u32, tag: &str) {
        let Some(parent) = self.elements.get(&sibling).and_then(|e| e.parent) else { return };
        let children = &mut self.elements.get_mut(&parent).unwrap().children;
        let at = children.iter().position(|c| *c == sibling).unwrap();
        children.insert(at, n);
        self.put(n, Some(parent), tag);
    }

    fn remove(&mut self, n: u32) {
        let Some(element) = self.elements.remove(&n) else { return };
        if let Some(parent) = element.parent.and_then(|p| self.elements.get_mut(&p)) {
            parent.children.retain(|c| *c != n);
        }
        for child in element.children {
            self.remove(child);
        }
    }

    fn sum(&self, n: u32) -> u64 {
        let mut sum = 0;
        let mut stack = vec![n];
        while let Some(n) = stack.pop() {
            let element = &self.elements[&n];
            sum += u64::from(element.number);
            stack.extend(element.children.iter().rev());
        }
        sum
    }
}

fn grown(state: &mut u64) -> Tree {
    let mut tree = Tree::default();
    tree.add(1, None, "div");
    for n in 1..ELEMENTS {
        let parent = draw(state, n) + 1;
        tree.add(n + 1, Some(parent), "p");
    }
    tree
}

fn class(n: u32) -> String {
    char::from(b'a' + n as u8).to_string()
}

fn has(element: &Element, class: &str) -> bool {
    element.classes.iter().any(|c| c == class)
}

// `.a .b > .c`
fn matches(tree: &Tree, n: u32, a: &str, b: &str, c: &str) -> bool {
    let element = &tree.elements[&n];
    if !has(element, c) {
        return false;
    }
    let Some(parent) = element.parent.map(|p| &tree.elements[&p]) else { return false };
    if !has(parent, b) {
        return false;
    }
    let mut up = parent.parent;
    while let Some(n) = up {
        let element = &tree.elements[&n];
        if has(element, a) {
            return true;
        }
        up = element.parent;
    }
    false
}

const RULES: u32 = 4_096;

struct Rule {
    class: String,
    specificity: (u32, u32, u32),
    declarations: Vec<(u8, bool, i32)>,
}

// By class, the indexes of the rules that name it.
struct Sheet {
    rules: Vec<Rule>,
    by_class: HashMap<String, Vec<usize>>,
}

fn sheet() -> Sheet {
    let mut sheet = Sheet { rules: Vec::new(), by_class: HashMap::new() };
    for n in 0..RULES {
        let class = format!("c{n}");
        sheet.by_class.entry(class.clone()).or_default().push(n as usize);
        sheet.rules.push(Rule { class, specificity: (0, 1, 0), declarations: vec![(0, false, n as i32)] });
    }
    sheet
}

// The winners of an element by property, shared.
fn winners(sheet: &Sheet, tree: &Tree, n: u32) -> Rc<Vec<(u8, bool, i32)>> {
    let element = &tree.elements[&n];
    let mut best: Vec<(u8, bool, (u32, u32, u32), usize, i32)> = Vec::new();
    for class in &element.classes {
        for at in sheet.by_class.get(class).map_or(&[][..], Vec::as_slice) {
            let rule = &sheet.rules[*at];
            if !has(element, &rule.class) {
                continue;
            }
            for (property, important, value) in &rule.declarations {
                match best.iter_mut().find(|b| b.0 == *property && b.1 == *important) {
                    None => best.push((*property, *important, rule.specificity, *at, *value)),
                    Some(b) if (b.2, b.3) <= (rule.specificity, *at) => {
                        *b = (*property, *important, rule.specificity, *at, *value)
                    }
                    Some(_) => {}
                }
            }
        }
    }
    Rc::new(best.iter().map(|b| (b.0, b.1, b.4)).collect())
}

fn main() {
    let words: Vec<String> = std::env::args().collect();
    let rounds: u64 = words[2].parse().unwrap();
    let mut state = 7;
    let mut found = 0u64;
    match words[1].as_str() {
        "adds" => {
            for _ in 0..rounds {
                found += grown(&mut state).elements.len() as u64;
            }
        }
        "edits" => {
            for _ in 0..rounds {
                let mut tree = grown(&mut state);
                for n in 0..30_000 {
                    tree.remove(ELEMENTS - n);
                    let sibling = draw(&mut state, 30_000) + 1;
                    tree.insert(ELEMENTS + 1 + n, sibling, "p");
                }
                found += tree.elements.len() as u64;
            }
        }
        "walks" => {
            let tree = grown(&mut state);
            for _ in 0..rounds {
                found += tree.sum(1);
            }
        }
        "winners" => {
            let sheet = sheet();
            let mut tree = Tree::default();
            tree.add(1, None, "div");
            for n in 1..RULES {
                tree.add(n + 1, Some(1), "p");
                let classes = vec![format!("c{}", draw(&mut state, RULES)), format!("c{}", draw(&mut state, RULES))];
                tree.elements.get_mut(&(n + 1)).unwrap().classes = classes;
            }
            for _ in 0..rounds {
                for n in 0..RULES {
                    found += winners(&sheet, &tree, n + 1).iter().any(|w| w.0 == 0) as u64;
                }
            }
        }
        _ => {
            let mut tree = grown(&mut state);
            for n in 0..ELEMENTS {
                let classes = vec![class(draw(&mut state, 26)), class(draw(&mut state, 26))];
                tree.elements.get_mut(&(n + 1)).unwrap().classes = classes;
            }
            for _ in 0..rounds * 100 {
                let (a, b, c) = (draw(&mut state, 26), draw(&mut state, 26), draw(&mut state, 26));
                let (a, b, c) = (class(a), class(b), class(c));
                for n in 0..ELEMENTS {
                    found += u64::from(matches(&tree, n + 1, &a, &b, &c));
                }
            }
        }
    }
    println!("{found} {}", tree_tag(&state));
}

fn tree_tag(state: &u64) -> u64 {
    state % 2
}
