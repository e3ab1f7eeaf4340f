//! A discrete-event loop over components as data, written with nothing but std, for bench/runs.py.
//!
//! `runs COMPONENTS SCRIPT` builds the plan of the sheet that bench/runs.py writes, runs the script and prints what `eds run`
//! prints. There are wires, a queue, an ordered set of the moments to come, transitions by state and trigger, and activities of
//! a few statements. It judges nothing: a script that isn't one ends it.

use std::collections::{BTreeSet, HashMap, VecDeque};
use std::fmt::Write as _;
use std::io::Write as _;

type End = (usize, usize);

#[derive(Clone, Copy, PartialEq, Eq, Hash)]
enum Trigger {
    Command(usize, usize),
    Timer(u64),
}

enum Statement {
    Add(usize, u64),
    Send(usize, usize),
    SendArgument(usize, usize),
}

struct Transition {
    to: usize,
    activity: usize,
}

struct Machine {
    name: &'static str,
    states: Vec<&'static str>,
    transitions: HashMap<(usize, Trigger), Vec<Transition>>,
    timers: Vec<Vec<u64>>,
}

struct Plan {
    name: String,
    ends: Vec<(&'static str, Vec<&'static str>)>,
    variables: Vec<&'static str>,
    activities: Vec<Vec<Statement>>,
    machines: Vec<Machine>,
}

#[derive(Clone, Copy)]
struct Standing {
    at: usize,
    entered: u64,
    passed: u64,
}

struct State {
    variables: Vec<u64>,
    machines: Vec<Standing>,
}

/// What goes over an end: its member, and the octets of an argument that is there.
struct Primitive {
    end: End,
    member: usize,
    argument: Option<[u8; 3]>,
}

struct Host {
    plans: Vec<Plan>,
    states: Vec<State>,
    wires: HashMap<End, End>,
    queue: VecDeque<Primitive>,
    moments: BTreeSet<(u64, usize, usize)>,
    now: u64,
    report: String,
}

fn machine(name: &'static str, trigger: Trigger, activity: usize) -> Machine {
    let timers = match trigger {
        Trigger::Timer(after) => vec![after],
        Trigger::Command(..) => vec![],
    };
    let transitions = HashMap::from([((0, trigger), vec![Transition { to: 0, activity }])]);
    Machine { name, states: vec!["S"], transitions, timers: vec![timers] }
}

fn plan_of(number: usize) -> Plan {
    let name = format!("Load/C{number}");
    if number > 0 {
        let machines = vec![machine("t", Trigger::Timer(1_000_000_000_000_000), 0)];
        return Plan { name, ends: vec![], variables: vec!["n"], activities: vec![vec![Statement::Add(0, 1)]], machines };
    }
    Plan {
        name,
        ends: vec![("q", vec!["hit"]), ("bus", vec!["send", "recv"]), ("p", vec!["hit"])],
        variables: vec!["n", "h"],
        activities: vec![
            vec![Statement::Add(0, 1), Statement::SendArgument(1, 0)],
            vec![Statement::Send(2, 0)],
            vec![Statement::Add(1, 1)],
        ],
        machines: vec![
            machine("m", Trigger::Command(1, 1), 0),
            machine("t", Trigger::Timer(10), 1),
            machine("c", Trigger::Command(0, 0), 2),
        ],
    }
}

/// The next moment of a machine, if a timer of its state is still to come.
fn next_moment(machine: &Machine, standing: Standing) -> Option<u64> {
    let moments = machine.timers[standing.at].iter().map(|after| standing.entered + after);
    moments.filter(|moment| *moment > standing.passed).min()
}

impl Host {
    fn new(components: usize) -> Host {
        let plans: Vec<Plan> = (0..components).map(plan_of).collect();
        let begin = Standing { at: 0, entered: 0, passed: 0 };
        let state = |plan: &Plan| State { variables: vec![0; plan.variables.len()], machines: vec![begin; plan.machines.len()] };
        let states = plans.iter().map(state).collect();
        let mut host =
            Host { plans, states, wires: HashMap::new(), queue: VecDeque::new(), moments: BTreeSet::new(), now: 0, report: String::new() };
        for component in 0..components {
            for number in 0..host.plans[component].machines.len() {
                host.await_next(component, number);
            }
        }
        host
    }

    fn await_next(&mut self, component: usize, number: usize) {
        let standing = self.states[component].machines[number];
        if let Some(moment) = next_moment(&self.plans[component].machines[number], standing) {
            self.moments.insert((moment, component, number));
        }
    }

    fn forget_next(&mut self, component: usize, number: usize) {
        let standing = self.states[component].machines[number];
        if let Some(moment) = next_moment(&self.plans[component].machines[number], standing) {
            self.moments.remove(&(moment, component, number));
        }
    }

    /// A machine takes the first transition that leaves its state on a trigger.
    fn react(&mut self, component: usize, number: usize, trigger: Trigger, argument: Option<[u8; 3]>) {
        let at = self.states[component].machines[number].at;
        let machine = &self.plans[component].machines[number];
        let Some(transition) = machine.transitions.get(&(at, trigger)).and_then(|found| found.first()) else {
            return;
        };
        let (to, activity) = (transition.to, transition.activity);
        self.forget_next(component, number);
        self.act(component, activity, argument);
        self.states[component].machines[number] = Standing { at: to, entered: self.now, passed: self.now };
        self.await_next(component, number);
    }

    fn act(&mut self, component: usize, activity: usize, argument: Option<[u8; 3]>) {
        for at in 0..self.plans[component].activities[activity].len() {
            match self.plans[component].activities[activity][at] {
                Statement::Add(variable, number) => self.states[component].variables[variable] += number,
                Statement::Send(end, member) => self.send(Primitive { end: (component, end), member, argument: None }),
                Statement::SendArgument(end, member) => self.send(Primitive { end: (component, end), member, argument }),
            }
        }
    }

    /// What is sent at a wired end waits, and what is sent at another one is reported.
    fn send(&mut self, sent: Primitive) {
        if let Some(other) = self.wires.get(&sent.end) {
            self.queue.push_back(Primitive { end: *other, ..sent });
            return;
        }
        let plan = &self.plans[sent.end.0];
        let (end, members) = &plan.ends[sent.end.1];
        let word = if sent.argument.is_some() { "frame" } else { "cmd" };
        let _ = write!(self.report, "{} {word} {}:{end} {} ", self.now, plan.name, members[sent.member]);
        match sent.argument {
            Some(octets) => octets.iter().for_each(|octet| {
                let _ = write!(self.report, "{octet:02x}");
            }),
            None => self.report.push_str("{}"),
        }
        self.report.push('\n');
    }

    fn arrive(&mut self, came: &Primitive) {
        for number in 0..self.plans[came.end.0].machines.len() {
            self.react(came.end.0, number, Trigger::Command(came.end.1, came.member), came.argument);
        }
    }

    fn deliver(&mut self) {
        while let Some(first) = self.queue.pop_front() {
            self.arrive(&first);
        }
    }

    fn tick(&mut self, until: u64) {
        while let Some((moment, component, number)) = self.moments.first().copied().filter(|first| first.0 <= until) {
            self.now = moment;
            let after = moment - self.states[component].machines[number].entered;
            self.react(component, number, Trigger::Timer(after), None);
            self.deliver();
        }
        self.now = until;
    }

    fn end_of(&self, text: &str) -> End {
        let (name, end) = text.split_once(':').expect("an end");
        let component = self.plans.iter().position(|plan| plan.name == name).expect("a component");
        (component, self.plans[component].ends.iter().position(|it| it.0 == end).expect("an end"))
    }

    fn handle(&mut self, line: &str) {
        let words: Vec<&str> = line.split(' ').collect();
        match words[..] {
            ["wire", lower, upper] => {
                let (lower, upper) = (self.end_of(lower), self.end_of(upper));
                self.wires.insert(lower, upper);
                self.wires.insert(upper, lower);
            }
            ["tick", number] => self.tick(self.now + number.parse::<u64>().expect("a number")),
            ["frame", end, member, digits] => {
                let end = self.end_of(end);
                let member = self.plans[end.0].ends[end.1].1.iter().position(|it| *it == member).expect("a member");
                let mut argument = [0; 3];
                for (at, octet) in argument.iter_mut().enumerate() {
                    *octet = u8::from_str_radix(&digits[2 * at..2 * at + 2], 16).expect("hex");
                }
                self.arrive(&Primitive { end, member, argument: Some(argument) });
                self.deliver();
            }
            _ => panic!("no line: {line}"),
        }
    }

    fn end(&mut self) {
        let _ = writeln!(self.report, "end {}", self.now);
        for (plan, state) in self.plans.iter().zip(&self.states) {
            for (machine, standing) in plan.machines.iter().zip(&state.machines) {
                let _ = writeln!(self.report, "state {} {} {}", plan.name, machine.name, machine.states[standing.at]);
            }
            for (variable, value) in plan.variables.iter().zip(&state.variables) {
                let _ = writeln!(self.report, "var {} {variable} {value}", plan.name);
            }
        }
    }
}

fn main() {
    let words: Vec<String> = std::env::args().skip(1).collect();
    let components = words[0].parse().expect("a number of components");
    let script = std::fs::read_to_string(&words[1]).expect("a script");
    let mut host = Host::new(components);
    script.lines().for_each(|line| host.handle(line));
    host.end();
    std::io::stdout().write_all(host.report.as_bytes()).expect("standard output");
}
