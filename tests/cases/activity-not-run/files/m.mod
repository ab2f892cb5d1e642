scheduleHorizon = 30;
Activity walls(5);
solve { walls.end <= 20; };
