pub(crate) struct AcNetwork;
