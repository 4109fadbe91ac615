<?php
// Takes a year's plan back, with the one class that it needs.
class AirPlan
{
    public $year, $leap, $months;
}

$plan = unserialize(file_get_contents('leap.plan'), ['allowed_classes' => ['AirPlan']]);
if (!$plan instanceof AirPlan) {
    exit("leap.plan holds no AirPlan\n");
}
echo count($plan->months[2]), ' days in February, the last with ', $plan->months[2][29], "\n";
