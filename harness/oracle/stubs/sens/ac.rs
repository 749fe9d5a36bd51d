pub struct AcNewton;
