scheduleHorizon = 9;
Activity a(3);
minimize a.end subject to { };
