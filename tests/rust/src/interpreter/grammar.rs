//! The grammar: words to a syntax tree, refusing by 13.

use super::text::{refuse, words, Refusal, Token, Word};
use super::value::{Kind, Operator, Value};

const OPENERS_MOST: usize = 16;

#[derive(Clone, Copy, Debug)]
pub struct Name<'t> {
    pub text: &'t [u8],
    pub place: usize,
}

#[derive(Debug)]
pub struct Bench<'t> {
    /// The whole file: a state belongs to it.
    pub text: &'t [u8],
    pub interfaces: Vec<Interface<'t>>,
    pub entities: Vec<Entity<'t>>,
    pub rules: Vec<Rule<'t>>,
}

#[derive(Debug)]
pub struct Interface<'t> {
    pub place: usize,
    pub name: Name<'t>,
    pub members: Vec<Member<'t>>,
}

#[derive(Clone, Copy, Debug, PartialEq, Eq)]
pub enum Sort {
    Attribute,
    Event,
    Action,
}

#[derive(Debug)]
pub struct Member<'t> {
    pub place: usize,
    pub sort: Sort,
    pub name: Name<'t>,
    pub kind: Kind,
}

#[derive(Debug)]
pub struct Entity<'t> {
    pub place: usize,
    pub name: Name<'t>,
    pub interface: Name<'t>,
    pub assignments: Vec<Assignment<'t>>,
    /// Place of the `}`.
    pub close: usize,
}

#[derive(Debug)]
pub struct Assignment<'t> {
    pub name: Name<'t>,
    /// Place of the `=`.
    pub equals: usize,
    pub value: Value,
}

#[derive(Debug)]
pub struct Rule<'t> {
    pub place: usize,
    /// Set where the rule begins `when rank`.
    pub ranked: Option<Rank>,
    pub condition: Condition<'t>,
    pub calls: Vec<Call<'t>>,
}

/// The number after `rank`: its value, of whatever size, and where it stands.
#[derive(Clone, Copy, Debug)]
pub struct Rank {
    pub value: i32,
    pub place: usize,
}

#[derive(Debug)]
pub enum Condition<'t> {
    Clause(Box<Clause<'t>>),
    All(Vec<Condition<'t>>),
    Any(Vec<Condition<'t>>),
}

#[derive(Debug)]
pub struct Clause<'t> {
    pub place: usize,
    pub event: Name<'t>,
    pub from: Place<'t>,
    pub filter: Option<Filter<'t>>,
    pub test: Test<'t>,
}

#[derive(Debug)]
pub enum Test<'t> {
    Changed,
    /// The place of the `=`, then the sum.
    Equals(usize, Sum<'t>),
}

#[derive(Debug)]
pub struct Call<'t> {
    pub place: usize,
    pub action: Name<'t>,
    /// Place of the `(`.
    pub open: usize,
    pub parameter: Sum<'t>,
    pub on: Place<'t>,
    pub filter: Option<Filter<'t>>,
}

#[derive(Debug)]
pub struct Filter<'t> {
    pub attribute: Name<'t>,
    /// Place of the `=`.
    pub equals: usize,
    pub sum: Sum<'t>,
}

#[derive(Debug)]
pub struct Place<'t> {
    pub name: Name<'t>,
    /// Set where the place declares a variable.
    pub interface: Option<Name<'t>>,
}

#[derive(Debug)]
pub enum Sum<'t> {
    Literal(Value),
    Member(Name<'t>, Name<'t>),
    Real(usize, Box<Sum<'t>>),
    Minus(usize, Box<Sum<'t>>),
    /// Operands grouping to the left. One flat list, so that a long sum is not a deep tree.
    Chain(Box<Sum<'t>>, Vec<Link<'t>>),
}

#[derive(Debug)]
pub struct Link<'t> {
    pub operator: Operator,
    pub place: usize,
    pub right: Sum<'t>,
}

impl<'t> Rule<'t> {
    /// Document 02, order 6: "without it the rank is 0."
    pub fn rank(&self) -> i32 {
        self.ranked.map_or(0, |rank| rank.value)
    }

    /// The clauses in the order of the text.
    pub fn clauses(&self) -> Vec<&Clause<'t>> {
        let mut found = Vec::new();
        collect_clauses(&self.condition, &mut found);
        found
    }

    /// The places in the order of the text: the condition's, then the calls'.
    pub fn places(&self) -> Vec<&Place<'t>> {
        let mut found: Vec<_> = self.clauses().into_iter().map(|clause| &clause.from).collect();
        found.extend(self.calls.iter().map(|call| &call.on));
        found
    }
}

fn collect_clauses<'c, 't>(condition: &'c Condition<'t>, found: &mut Vec<&'c Clause<'t>>) {
    match condition {
        Condition::Clause(clause) => found.push(clause),
        Condition::All(parts) | Condition::Any(parts) => parts.iter().for_each(|part| collect_clauses(part, found)),
    }
}

/// Reads a text: refusals 11, 12 and 13.
pub fn read(text: &[u8]) -> Result<Bench<'_>, Refusal> {
    let words = words(text)?;
    let mut reader = Reader { words: &words, at: 0, text };
    let bench = reader.file()?;
    match reader.words.get(reader.at) {
        None => Ok(bench),
        Some(word) => refuse(13, word.place),
    }
}

struct Reader<'w, 't> {
    words: &'w [Word<'t>],
    at: usize,
    text: &'t [u8],
}

type Read<T> = Result<T, Refusal>;

impl<'t> Reader<'_, 't> {
    fn token(&self) -> Option<Token<'t>> {
        self.words.get(self.at).map(|word| word.token)
    }

    /// Where the next word stands, or the text's length if there is none.
    fn place(&self) -> usize {
        self.words.get(self.at).map_or(self.text.len(), |word| word.place)
    }

    fn fail<T>(&self) -> Read<T> {
        refuse(13, self.place())
    }

    fn sees(&self, reserved: &str) -> bool {
        matches!(self.token(), Some(Token::Reserved(word)) if word == reserved)
    }

    fn sees_mark(&self, mark: u8) -> bool {
        self.token() == Some(Token::Mark(mark))
    }

    fn take(&mut self, reserved: &str) -> Read<usize> {
        if !self.sees(reserved) {
            return self.fail();
        }
        self.step()
    }

    fn take_mark(&mut self, mark: u8) -> Read<usize> {
        if !self.sees_mark(mark) {
            return self.fail();
        }
        self.step()
    }

    /// Moves past one word and gives its place.
    fn step(&mut self) -> Read<usize> {
        let place = self.place();
        self.at += 1;
        Ok(place)
    }

    fn name(&mut self) -> Read<Name<'t>> {
        match self.token() {
            Some(Token::Name(text)) => Ok(Name { text, place: self.step()? }),
            _ => self.fail(),
        }
    }

    fn kind(&mut self) -> Read<Kind> {
        let kind = match self.token() {
            Some(Token::Reserved("whole")) => Kind::Whole,
            Some(Token::Reserved("bool")) => Kind::Bool,
            Some(Token::Reserved("real")) => Kind::Real,
            _ => return self.fail(),
        };
        self.step()?;
        Ok(kind)
    }

    fn file(&mut self) -> Read<Bench<'t>> {
        let mut interfaces = Vec::new();
        while self.sees("interface") {
            interfaces.push(self.interface()?);
        }
        let mut entities = Vec::new();
        while self.sees("entity") {
            entities.push(self.entity()?);
        }
        self.take("rules")?;
        let mut rules = Vec::new();
        while self.sees("when") {
            rules.push(self.rule()?);
        }
        self.take("end")?;
        Ok(Bench { text: self.text, interfaces, entities, rules })
    }

    fn interface(&mut self) -> Read<Interface<'t>> {
        let place = self.take("interface")?;
        let name = self.name()?;
        self.take_mark(b'{')?;
        let mut members = Vec::new();
        for (word, sort) in [("attribute", Sort::Attribute), ("event", Sort::Event), ("action", Sort::Action)] {
            while self.sees(word) {
                members.push(self.member(sort)?);
            }
        }
        self.take_mark(b'}')?;
        Ok(Interface { place, name, members })
    }

    fn member(&mut self, sort: Sort) -> Read<Member<'t>> {
        let place = self.step()?;
        let name = self.name()?;
        let kind = if sort == Sort::Action {
            self.take_mark(b'(')?;
            let kind = self.kind()?;
            self.take_mark(b')')?;
            kind
        } else {
            self.take_mark(b':')?;
            self.kind()?
        };
        Ok(Member { place, sort, name, kind })
    }

    fn entity(&mut self) -> Read<Entity<'t>> {
        let place = self.take("entity")?;
        let name = self.name()?;
        self.take_mark(b':')?;
        let interface = self.name()?;
        self.take_mark(b'{')?;
        let mut assignments = Vec::new();
        while !self.sees_mark(b'}') {
            assignments.push(self.assignment()?);
        }
        let close = self.take_mark(b'}')?;
        Ok(Entity { place, name, interface, assignments, close })
    }

    fn assignment(&mut self) -> Read<Assignment<'t>> {
        let name = self.name()?;
        let equals = self.take_mark(b'=')?;
        let value = self.signed_literal()?;
        Ok(Assignment { name, equals, value })
    }

    fn signed_literal(&mut self) -> Read<Value> {
        if !self.sees_mark(b'-') {
            return self.literal();
        }
        self.step()?;
        match self.token() {
            Some(Token::Whole(value)) => self.step().map(|_| Value::Whole(-value)),
            Some(Token::Real(value)) => self.step().map(|_| Value::Real(-f64::from(value))),
            _ => self.fail(),
        }
    }

    fn literal(&mut self) -> Read<Value> {
        let value = match self.token() {
            Some(Token::Whole(value)) => Value::Whole(value),
            Some(Token::Real(value)) => Value::Real(f64::from(value)),
            Some(Token::Reserved("true")) => Value::Bool(true),
            Some(Token::Reserved("false")) => Value::Bool(false),
            _ => return self.fail(),
        };
        self.step()?;
        Ok(value)
    }

    fn rule(&mut self) -> Read<Rule<'t>> {
        let place = self.take("when")?;
        let ranked = self.rank()?;
        let condition = self.condition(0)?;
        self.take("trigger")?;
        let mut calls = vec![self.call()?];
        while self.sees_mark(b',') {
            self.step()?;
            calls.push(self.call()?);
        }
        self.take("end")?;
        Ok(Rule { place, ranked, condition, calls })
    }

    /// Document 02, order 6: "A rule may begin `when rank` with one number 0 to 9, no `r`". One above 9 is grammatical: 44 refuses it.
    fn rank(&mut self) -> Read<Option<Rank>> {
        if !self.sees("rank") {
            return Ok(None);
        }
        self.step()?;
        match self.token() {
            Some(Token::Whole(value)) => Ok(Some(Rank { value, place: self.step()? })),
            _ => self.fail(),
        }
    }

    /// `depth` counts the openers around this point.
    fn condition(&mut self, depth: usize) -> Read<Condition<'t>> {
        let mut parts = vec![self.conjunction(depth)?];
        while self.sees("or") {
            self.step()?;
            parts.push(self.conjunction(depth)?);
        }
        Ok(Condition::Any(parts))
    }

    fn conjunction(&mut self, depth: usize) -> Read<Condition<'t>> {
        let mut parts = vec![self.atom(depth)?];
        while self.sees("and") {
            self.step()?;
            parts.push(self.atom(depth)?);
        }
        Ok(Condition::All(parts))
    }

    fn atom(&mut self, depth: usize) -> Read<Condition<'t>> {
        if !self.sees_mark(b'(') {
            return self.clause(depth).map(|clause| Condition::Clause(Box::new(clause)));
        }
        let inside = self.open(depth)?;
        let condition = self.condition(inside)?;
        self.take_mark(b')')?;
        Ok(condition)
    }

    /// Moves past an opener; the one that 16 enclose is refused.
    fn open(&mut self, depth: usize) -> Read<usize> {
        if depth == OPENERS_MOST {
            return self.fail();
        }
        self.step()?;
        Ok(depth + 1)
    }

    fn clause(&mut self, depth: usize) -> Read<Clause<'t>> {
        let place = self.take("event")?;
        let event = self.name()?;
        self.take("from")?;
        let from = self.target()?;
        let filter = self.filter(depth)?;
        self.take("value")?;
        let test = if self.sees("changed") {
            self.step()?;
            Test::Changed
        } else {
            Test::Equals(self.take_mark(b'=')?, self.sum(depth)?)
        };
        Ok(Clause { place, event, from, filter, test })
    }

    fn call(&mut self) -> Read<Call<'t>> {
        let place = self.take("action")?;
        let action = self.name()?;
        let open = self.take_mark(b'(')?;
        let parameter = self.sum(0)?;
        self.take_mark(b')')?;
        self.take("on")?;
        let on = self.target()?;
        let filter = self.filter(0)?;
        Ok(Call { place, action, open, parameter, on, filter })
    }

    fn target(&mut self) -> Read<Place<'t>> {
        let name = self.name()?;
        if !self.sees_mark(b':') {
            return Ok(Place { name, interface: None });
        }
        self.step()?;
        Ok(Place { name, interface: Some(self.name()?) })
    }

    fn filter(&mut self, depth: usize) -> Read<Option<Filter<'t>>> {
        if !self.sees("with") {
            return Ok(None);
        }
        self.step()?;
        let attribute = self.name()?;
        let equals = self.take_mark(b'=')?;
        let sum = self.sum(depth)?;
        Ok(Some(Filter { attribute, equals, sum }))
    }

    fn sum(&mut self, depth: usize) -> Read<Sum<'t>> {
        let first = self.product(depth)?;
        let mut rest = Vec::new();
        while let Some(operator) = self.operator(&[(b'+', Operator::Plus), (b'-', Operator::Minus)]) {
            rest.push(Link { operator, place: self.step()?, right: self.product(depth)? });
        }
        Ok(chain(first, rest))
    }

    fn product(&mut self, depth: usize) -> Read<Sum<'t>> {
        let first = self.factor(depth)?;
        let mut rest = Vec::new();
        while let Some(operator) = self.operator(&[(b'*', Operator::Times), (b'/', Operator::Over)]) {
            rest.push(Link { operator, place: self.step()?, right: self.factor(depth)? });
        }
        Ok(chain(first, rest))
    }

    fn operator(&self, choices: &[(u8, Operator)]) -> Option<Operator> {
        choices.iter().find(|(mark, _)| self.sees_mark(*mark)).map(|(_, operator)| *operator)
    }

    fn factor(&mut self, depth: usize) -> Read<Sum<'t>> {
        let place = self.place();
        match self.token() {
            Some(Token::Name(_)) => self.member_of(),
            Some(Token::Mark(b'(')) => {
                let inside = self.open(depth)?;
                self.closed_sum(inside)
            }
            Some(Token::Mark(b'-')) => {
                let inside = self.open(depth)?;
                Ok(Sum::Minus(place, Box::new(self.factor(inside)?)))
            }
            Some(Token::Reserved("real")) => {
                let inside = self.open(depth)?;
                self.take_mark(b'(')?;
                Ok(Sum::Real(place, Box::new(self.closed_sum(inside)?)))
            }
            _ => self.literal().map(Sum::Literal),
        }
    }

    fn closed_sum(&mut self, depth: usize) -> Read<Sum<'t>> {
        let sum = self.sum(depth)?;
        self.take_mark(b')')?;
        Ok(sum)
    }

    fn member_of(&mut self) -> Read<Sum<'t>> {
        let owner = self.name()?;
        self.take_mark(b'.')?;
        let member = self.name()?;
        Ok(Sum::Member(owner, member))
    }
}

fn chain<'t>(first: Sum<'t>, rest: Vec<Link<'t>>) -> Sum<'t> {
    if rest.is_empty() {
        return first;
    }
    Sum::Chain(Box::new(first), rest)
}
