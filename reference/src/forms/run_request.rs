//! Requests to run a chart and its network side by side: a chart, and calls of its network.

use crate::forms::request::{Request, Success};
use crate::model::chart_machine::ChartConfiguration;
use crate::model::check::check;
use crate::model::network_machine::NetworkConfiguration;
use crate::model::refusal::Refusal;
use crate::runs::moment::{Call, Machines, Moment};

/// The length of the buffer that the network is written to.
const ROOM: u32 = 65_536;

/// The file of a chart, and calls of its network.
#[derive(Clone, PartialEq, Eq, Debug)]
pub struct RunRequest {
    pub file: Vec<u8>,
    pub calls: Vec<Call>,
}

/// The answer to a request to flatten the chart, and where it was flattened, what is seen after the
/// starts and after each call.
pub struct RunAnswer {
    pub flattened: Result<Success, Refusal>,
    pub views: Vec<View>,
}

/// What is seen of both machines after a call of the network.
pub struct View {
    /// Why the network refused the call, if it did.
    pub refusal: Option<Refusal>,
    pub network: NetworkConfiguration,
    pub read: Read,
    pub chart: ChartConfiguration,
    pub owed: usize,
}

/// The call of the chart that is read from a call of the network.
pub enum Read {
    Nothing,
    Start,
    Call(Call),
}

impl RunRequest {
    pub fn answer(&self) -> RunAnswer {
        let flattened = Request::Flatten(self.file.clone(), ROOM).answer();
        let views = match self.machines() {
            Ok(machines) if flattened.is_ok() => self.views(&machines),
            _ => Vec::new(),
        };
        RunAnswer { flattened, views }
    }

    pub fn machines(&self) -> Result<Machines, Refusal> {
        Machines::of(check(&self.file)?)
    }

    fn views(&self, machines: &Machines) -> Vec<View> {
        let mut moment = Moment::start(machines);
        let mut views = vec![View::of(&moment, None, Read::Start)];
        for call in &self.calls {
            let before = moment.chart_list.len();
            let refusal = moment.call_network(call).expect("every clause of the demand holds");
            let read = match moment.chart_list.get(before) {
                Some(call) => Read::Call(call.clone()),
                None => Read::Nothing,
            };
            views.push(View::of(&moment, refusal, read));
        }
        views
    }
}

impl View {
    fn of(moment: &Moment, refusal: Option<Refusal>, read: Read) -> View {
        View { refusal, network: moment.network, read, chart: moment.chart, owed: moment.owed }
    }
}
