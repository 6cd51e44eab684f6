pub const CEILING: u64 = 1_000_000_000_000;
const MOST: u64 = 65_535;

/// A slice of a period.
#[derive(Clone, Copy, PartialEq, Eq)]
pub struct Slice {
    pub period: u64,
    pub slice: u64,
}

impl Slice {
    pub fn new(period: u64, slice: u64) -> Option<Slice> {
        (1..=MOST).contains(&period).then_some(())?;
        (1..=period)
            .contains(&slice)
            .then_some(Slice { period, slice })
    }

    fn gap(&self) -> u64 {
        self.period - self.slice
    }

    fn worst(&self, n: u64) -> u64 {
        n + self.gap() * n.div_ceil(self.slice)
    }

    fn pace(&self, n: u64) -> u64 {
        (n * self.period).div_ceil(self.slice)
    }
}

/// A slice that is open in fixed ticks of its period.
#[derive(Clone, Copy)]
pub struct Fixed {
    slice: Slice,
    position: u64,
}

impl Fixed {
    pub fn new(period: u64, slice: u64, phase: u64) -> Option<Fixed> {
        let slice = Slice::new(period, slice)?;
        (phase < period).then_some(Fixed {
            slice,
            position: phase,
        })
    }

    fn tick(&mut self) -> bool {
        let granted = self.position < self.slice.slice;
        self.position += 1;
        if self.position == self.slice.period {
            self.position = 0;
        }
        granted
    }
}

/// A slice of each period, where others leave it.
#[derive(Clone, Copy)]
pub struct Float {
    slice: Slice,
    passed: u64,
    granted: u64,
}

impl Float {
    fn tick(&mut self, claimed: bool) -> bool {
        let left = self.slice.slice - self.granted;
        let granted = left > 0 && (!claimed || left == self.slice.period - self.passed);
        self.granted += u64::from(granted);
        self.passed += 1;
        if self.passed == self.slice.period {
            self.passed = 0;
            self.granted = 0;
        }
        granted
    }
}

#[derive(Clone, Copy)]
pub enum Kind {
    Own,
    Fixed(Fixed),
    Float(Float),
}

impl Kind {
    pub fn own(period: u64, slice: u64, phase: u64) -> Option<Kind> {
        ((period, slice, phase) == (1, 1, 0)).then_some(Kind::Own)
    }

    pub fn fixed(period: u64, slice: u64, phase: u64) -> Option<Kind> {
        Fixed::new(period, slice, phase).map(Kind::Fixed)
    }

    pub fn float(period: u64, slice: u64, phase: u64) -> Option<Kind> {
        let slice = Slice::new(period, slice)?;
        (phase == 0).then_some(Kind::Float(Float {
            slice,
            passed: 0,
            granted: 0,
        }))
    }

    fn worst(&self, n: u64) -> u64 {
        match self {
            Kind::Own => n,
            Kind::Fixed(fixed) => fixed.slice.worst(n),
            Kind::Float(_) if n == 0 => 0,
            Kind::Float(float) => float.slice.worst(n) + float.slice.gap(),
        }
    }

    fn lead(&self) -> u64 {
        match self {
            Kind::Own => 0,
            Kind::Fixed(fixed) => fixed.slice.gap(),
            Kind::Float(float) => 2 * float.slice.gap(),
        }
    }

    fn pace(&self, n: u64) -> u64 {
        match self {
            Kind::Own => n,
            Kind::Fixed(Fixed { slice, .. }) | Kind::Float(Float { slice, .. }) => slice.pace(n),
        }
    }

    fn tick(&mut self, claimed: bool) -> bool {
        match self {
            Kind::Own => true,
            Kind::Fixed(fixed) => fixed.tick(),
            Kind::Float(float) => float.tick(claimed),
        }
    }
}

/// A server of some kind, perhaps with a layer over it.
///
/// Of 256 firings of the longest task no figure comes near 64 bits.
#[derive(Clone, Copy)]
pub struct Server {
    pub kind: Kind,
    pub inner: Option<Fixed>,
}

impl Server {
    pub fn worst(&self, n: u64) -> u64 {
        self.kind
            .worst(self.inner.map_or(n, |inner| inner.slice.worst(n)))
    }

    pub fn lead(&self) -> u64 {
        let over = self
            .inner
            .map_or(0, |inner| self.kind.pace(inner.slice.gap()));
        self.kind.lead() + over
    }

    pub fn pace(&self, n: u64) -> u64 {
        self.kind
            .pace(self.inner.map_or(n, |inner| inner.slice.pace(n)))
    }

    pub fn tick(&mut self, claimed: bool) -> bool {
        let granted = self.kind.tick(claimed);
        match &mut self.inner {
            Some(inner) => granted && inner.tick(),
            None => granted,
        }
    }
}
